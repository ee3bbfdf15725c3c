//! Words and states for the engine, chosen by what the step or the cell waits for.

use super::random::Random;
use super::other_length;
use crate::for_c::state_bytes;
use crate::paper::engine::Waiting;
use crate::paper::State;

/// A word that is quiet, one that shares a bit with the mask, one that has the channel at its level, or any; rarely too large.
pub fn word_for(random: &mut Random, waiting: &Waiting) -> u16 {
    let any = random.below(1024) as u16;
    let apart = any & !waiting.mask;
    match random.weighted(&[40, 14, 18, 15, 8, 5]) {
        0 => with_channel(apart, waiting, false),
        1 => apart | lowest_or_highest(random, waiting.mask),
        2 => with_channel(apart, waiting, true),
        3 => any,
        4 => random.pick(&[0, 1, 512, 1022, 1023]),
        _ => random.pick(&[1024, 1025, 2048, 65_535, 1024 + any]),
    }
}

/// The word with the channel's bit at the level, or not at it.
fn with_channel(word: u16, waiting: &Waiting, at_level: bool) -> u16 {
    if !(1..=10).contains(&waiting.channel) {
        return word;
    }
    let bit = 1 << (waiting.channel - 1);
    if (waiting.level == 1) == at_level {
        word | bit
    } else {
        word & !bit
    }
}

/// One bit of the mask.
fn lowest_or_highest(random: &mut Random, mask: u16) -> u16 {
    let mask = mask & 1023;
    if mask == 0 {
        0
    } else if random.chance(50) {
        1 << mask.trailing_zeros()
    } else {
        1 << (15 - mask.leading_zeros())
    }
}

/// A state within the range of its step or cell, often a tick or two before the timeout or at the edge of a cell.
pub fn state_within(random: &mut Random, number: usize, timeout: u16) -> State {
    let last = timeout.max(1) - 1;
    let elapsed = match random.weighted(&[25, 30, 15, 10, 20]) {
        0 => 0,
        1 => last,
        2 => last.saturating_sub(1),
        3 => random.pick(&[3_998, 3_999, 4_000, 7_999, 8_000]).min(last),
        _ => random.below(usize::from(last) + 1) as u16,
    };
    State { number: number as u8, elapsed }
}

/// A state at the edge or beyond it: elapsed at the timeout and above, numbers beyond the last.
pub fn state_beyond(random: &mut Random, number: usize, count: usize, timeout: u16) -> State {
    let limit = timeout.max(1);
    match random.below(6) {
        0 => State { number: number as u8, elapsed: limit },
        1 => State { number: number as u8, elapsed: limit.saturating_add(random.between(1, 300) as u16) },
        2 => State { number: number as u8, elapsed: random.pick(&[1, 3_999, 4_000, 4_001, 39_999, 40_000, 65_535]) },
        3 => State { number: count as u8, elapsed: 0 },
        4 => State { number: random.pick(&[count as u8 + 1, 62, 63, 64, 127, 255]), elapsed: 0 },
        _ => State { number: random.byte(), elapsed: random.word() },
    }
}

/// A state's bytes as C lends them; at times of another length, or with a byte that must be 0 and is not.
pub fn lent_state(random: &mut Random, state: State) -> Vec<u8> {
    let mut bytes = state_bytes(state).to_vec();
    if random.chance(12) {
        let at = random.pick(&[1, 4, 5, 6, 7]);
        bytes[at] = random.pick(&[1, 2, 128, 255]);
    }
    if random.chance(6) {
        let length = other_length(random, bytes.len(), 20);
        bytes.resize(length, 0);
    }
    bytes
}
