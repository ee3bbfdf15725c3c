//! Sheets, whole and damaged: what families 1, 4 and 5 are made from.

use super::random::Random;
use crate::paper::sheet::{MOST_STEPS, STEP_BYTES};
use crate::paper::translation::cells_of_timeout;
use crate::paper::Step;

/// Tags that are easily taken for each other: by their digits, by the low byte, by the high byte.
const TAG_POOL: [u16; 18] =
    [1, 10, 257, 256, 65_535, 2, 266, 255, 258, 512, 513, 2_561, 2_560, 65_281, 11, 100, 101, 110];

/// Timeouts on each side of a whole number of cells.
const TIMEOUT_EDGES: [u16; 14] =
    [1, 1, 2, 3_999, 4_000, 4_001, 7_999, 8_000, 8_001, 12_000, 12_001, 36_000, 36_001, 40_000];

/// Steps that pass every test of a sheet before that of the cells.
pub fn valid_steps(random: &mut Random) -> Vec<Step> {
    let count = step_number(random);
    let tags = distinct_tags(random, count);
    tags.iter().map(|&tag| valid_step(random, tag, &tags)).collect()
}

fn step_number(random: &mut Random) -> usize {
    match random.weighted(&[10, 45, 30, 8, 7]) {
        0 => 1,
        1 => random.between(2, 8),
        2 => random.between(9, 40),
        3 => random.between(41, 62),
        _ => MOST_STEPS,
    }
}

fn distinct_tags(random: &mut Random, count: usize) -> Vec<u16> {
    let manner = random.below(4);
    let low = random.byte();
    let mut tags: Vec<u16> = Vec::with_capacity(count);
    while tags.len() < count {
        let tag = match manner {
            0 if tags.len() < 12 => random.pick(&TAG_POOL),
            1 => u16::from_le_bytes([low, random.byte()]),
            2 => random.between(1, 2 * MOST_STEPS) as u16,
            _ => random.word(),
        };
        if tag != 0 && !tags.contains(&tag) {
            tags.push(tag);
        }
    }
    tags
}

fn valid_step(random: &mut Random, tag: u16, tags: &[u16]) -> Step {
    let mask = if random.chance(55) { ten_bits(random) } else { 0 };
    let channel = if random.chance(60) { random.between(1, 10) as u8 } else { 0 };
    let timeout = if random.chance(65) { timeout(random) } else { 0 };
    let mut jump = |present: bool| match (present, random.chance(12)) {
        (false, _) => 0,
        (true, true) => tag,
        (true, false) => random.pick(tags),
    };
    let fault_jump = jump(mask != 0);
    let sequence_jump = jump(channel != 0);
    let timeout_jump = jump(timeout != 0);
    let level = if channel != 0 { random.below(2) as u8 } else { 0 };
    Step {
        tag,
        outputs: random.below(1024) as u16,
        mask,
        fault_jump,
        channel,
        level,
        sequence_jump,
        timeout,
        timeout_jump,
    }
}

/// A mask of few bits or of any.
pub fn ten_bits(random: &mut Random) -> u16 {
    match random.below(6) {
        0..=2 => 1 << random.below(10),
        3 => 1 << random.below(10) | 1 << random.below(10),
        4 => random.pick(&[1, 512, 1023]),
        _ => random.between(1, 1023) as u16,
    }
}

fn timeout(random: &mut Random) -> u16 {
    match random.weighted(&[45, 35, 20]) {
        0 => random.between(1, 6) as u16,
        1 => random.pick(&TIMEOUT_EDGES),
        _ => random.between(1, 40_000) as u16,
    }
}

pub fn cells_of(steps: &[Step]) -> usize {
    steps.iter().map(|step| cells_of_timeout(step.timeout)).sum()
}

/// Shortens long waits, keeping what is over their whole cells, until there are no more cells than that.
pub fn shorten(random: &mut Random, steps: &mut [Step], most: usize) {
    let mut cells = cells_of(steps);
    while cells > most {
        let step = random.below(steps.len());
        let before = cells_of_timeout(steps[step].timeout);
        if before > 1 {
            steps[step].timeout = (steps[step].timeout - 1) % 4_000 + 1;
            cells -= before - 1;
        }
    }
}

/// Lengthens waits until there are that many cells, or no wait is left that can be longer.
pub fn lengthen(random: &mut Random, steps: &mut [Step], cells: usize) {
    let mut missing = cells.saturating_sub(cells_of(steps));
    let mut tries = 200;
    while missing > 0 && tries > 0 {
        let step = random.below(steps.len());
        if (1..=36_000).contains(&steps[step].timeout) {
            steps[step].timeout += 4_000;
            missing -= 1;
        }
        tries -= 1;
    }
}

pub fn sheet_bytes(steps: &[Step]) -> Vec<u8> {
    let mut sheet = Vec::with_capacity(STEP_BYTES * steps.len());
    for step in steps {
        for word in [step.tag, step.outputs, step.mask, step.fault_jump] {
            sheet.extend_from_slice(&word.to_le_bytes());
        }
        sheet.extend_from_slice(&[step.channel, step.level]);
        for word in [step.sequence_jump, step.timeout, step.timeout_jump] {
            sheet.extend_from_slice(&word.to_le_bytes());
        }
    }
    sheet
}

/// One field of one step changed, mostly to one that some test refuses.
pub fn damage(random: &mut Random, steps: &mut [Step]) {
    let other_tag = random.pick(steps).tag;
    let number = random.below(steps.len());
    let step = &mut steps[number];
    match random.weighted(&[2, 6, 2, 2, 3, 3, 3, 8, 2]) {
        0 => step.tag = if random.chance(50) { 0 } else { other_tag ^ 0x100 },
        1 => step.tag = other_tag,
        2 => step.outputs = too_large_word(random),
        3 => step.mask = if random.chance(50) { too_large_word(random) } else { 0 },
        4 => damage_channel(random, step),
        5 => damage_timeout(random, step),
        6 => damage_jump(random, step, 0),
        7 => {
            let tag = tag_beside(random, other_tag);
            misdirect(random, step, tag);
        }
        _ => damage_byte(random, step),
    }
}

/// A tag that is easily taken for this one, or any.
fn tag_beside(random: &mut Random, tag: u16) -> u16 {
    match random.below(4) {
        0 => tag ^ 0x100,
        1 => tag ^ 0x8000,
        2 => random.pick(&TAG_POOL),
        _ => random.word(),
    }
}

/// Outputs, masks and words that are not below 1024, and the last that is.
pub fn too_large_word(random: &mut Random) -> u16 {
    if random.chance(85) {
        random.pick(&[1023, 1024, 1025, 2048, 32_768, 65_535])
    } else {
        random.between(1024, 65_535) as u16
    }
}

fn damage_channel(random: &mut Random, step: &mut Step) {
    match random.below(4) {
        0 => step.channel = random.pick(&[10, 11, 12, 128, 255]),
        1 => step.channel = if step.channel == 0 { 1 } else { 0 },
        2 => step.level = random.pick(&[2, 3, 128, 255]),
        _ => step.level = 1,
    }
}

fn damage_timeout(random: &mut Random, step: &mut Step) {
    step.timeout = match random.below(3) {
        0 => random.pick(&[40_001, 44_000, 65_535]),
        1 if step.timeout != 0 => 0,
        1 => random.pick(&TIMEOUT_EDGES),
        _ => random.between(39_999, 40_002) as u16,
    };
}

fn damage_jump(random: &mut Random, step: &mut Step, jump: u16) {
    match random.below(3) {
        0 => step.fault_jump = jump,
        1 => step.sequence_jump = jump,
        _ => step.timeout_jump = jump,
    }
}

/// Sends the exits that the step has to another tag: one of them, or all.
fn misdirect(random: &mut Random, step: &mut Step, tag: u16) {
    let chosen = random.below(4);
    if step.mask != 0 && (chosen == 0 || chosen == 3) {
        step.fault_jump = tag;
    }
    if step.channel != 0 && (chosen == 1 || chosen == 3) {
        step.sequence_jump = tag;
    }
    if step.timeout != 0 && (chosen == 2 || chosen == 3) {
        step.timeout_jump = tag;
    }
}

fn damage_byte(random: &mut Random, step: &mut Step) {
    match random.below(4) {
        0 => step.outputs = random.word(),
        1 => step.mask = random.word(),
        2 => step.channel = random.byte(),
        _ => step.timeout = random.word(),
    }
}

/// Makes the bytes of a sheet or of a table longer or shorter, often by one byte or by one record.
pub fn damage_length(random: &mut Random, bytes: &mut Vec<u8>, record: usize) {
    let length = match random.below(10) {
        0 => 0,
        1 => random.below(record),
        2 | 3 => bytes.len() - 1,
        4 | 5 => bytes.len() + 1,
        6 => bytes.len() - record,
        7 => record * random.pick(&[64, 64, 65, 68]),
        8 => record * 63 + random.pick(&[1, 1, 2, record - 1]),
        _ => random.below(1100),
    };
    let filling = random.bytes(length.saturating_sub(bytes.len()));
    bytes.truncate(length);
    bytes.extend_from_slice(&filling);
}
