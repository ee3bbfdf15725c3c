//! "Numbers of several bytes have the low byte first."

pub fn word_at(bytes: &[u8], at: usize) -> u16 {
    u16::from_le_bytes([bytes[at], bytes[at + 1]])
}

pub fn put_word(bytes: &mut [u8], at: usize, word: u16) {
    bytes[at..at + 2].copy_from_slice(&word.to_le_bytes());
}

/// "below 1024": outputs, masks and words of ten bits.
pub const WORD_LIMIT: u16 = 1024;
