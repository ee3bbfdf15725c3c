//! The normal bytes of an accepted image, byte by byte from the paper and not by writing what was read.

use super::image::IMAGE_BYTES;
use super::settings::{group_kind, GroupKind, GROUP_BYTES};

/// "Normal bytes use the lowest code where two codes mean the same." For an accepted image, which has eighty bytes.
pub fn normal(image: &[u8]) -> [u8; IMAGE_BYTES] {
    let mut bytes = [0; IMAGE_BYTES];
    for (address, (to, &from)) in bytes.iter_mut().zip(image).enumerate() {
        *to = normal_byte(address, from);
    }
    bytes
}

/// Two codes mean the same at two bytes only: the range of VP, and the pull-up of an output.
fn normal_byte(address: usize, byte: u8) -> u8 {
    match (address % GROUP_BYTES, group_kind(address / GROUP_BYTES)) {
        (5, GroupKind::Vp) => lowest_range(byte),
        (7, _) => lowest_pull(byte),
        _ => byte,
    }
}

/// "2 and 3 ultralow".
fn lowest_range(byte: u8) -> u8 {
    if byte == 3 {
        2
    } else {
        byte
    }
}

/// "0 and 1 none; 2 and 3 300 kΩ to VDDCAP".
fn lowest_pull(byte: u8) -> u8 {
    match byte % 16 {
        1 | 3 => byte - 1,
        _ => byte,
    }
}
