//! The sheet: "1 to 63 steps of 16 bytes", and its tests.

use super::numbers::{word_at, WORD_LIMIT};
use super::verdict::{Verdict, OUT_OF_RANGE, REPEATED_TAG, UNKNOWN_TAG, WRONG_LENGTH};

pub const STEP_BYTES: usize = 16;
pub const MOST_STEPS: usize = 63;
/// "timeout 0 to 40,000 ticks".
pub const MOST_STEP_TIMEOUT: u16 = 40_000;
/// "channel 0 for none or 1 to 10".
pub const MOST_CHANNEL: u8 = 10;

/// "tag (2), outputs (2), monitor mask (2), fault jump (2), sequence channel (1), level (1), sequence jump (2), timeout (2),
/// timeout jump (2)".
#[derive(Clone, Copy, Debug, PartialEq, Eq)]
pub struct Step {
    pub tag: u16,
    pub outputs: u16,
    pub mask: u16,
    pub fault_jump: u16,
    pub channel: u8,
    pub level: u8,
    pub sequence_jump: u16,
    pub timeout: u16,
    pub timeout_jump: u16,
}

pub fn step_count(sheet: &[u8]) -> usize {
    sheet.len() / STEP_BYTES
}

pub fn step_at(sheet: &[u8], step: usize) -> Step {
    let record = &sheet[STEP_BYTES * step..STEP_BYTES * (step + 1)];
    Step {
        tag: word_at(record, 0),
        outputs: word_at(record, 2),
        mask: word_at(record, 4),
        fault_jump: word_at(record, 6),
        channel: record[8],
        level: record[9],
        sequence_jump: word_at(record, 10),
        timeout: word_at(record, 12),
        timeout_jump: word_at(record, 14),
    }
}

fn tag_at(sheet: &[u8], step: usize) -> u16 {
    word_at(sheet, STEP_BYTES * step)
}

/// The step that has this tag: both bytes of a tag count.
pub fn find_tag(sheet: &[u8], tag: u16) -> Option<usize> {
    (0..step_count(sheet)).find(|&step| tag_at(sheet, step) == tag)
}

/// "Tests: length; fields of every step; repeated tags; unknown tags" - "without cells and room", which the translator tests.
/// "The lowest step is named."
pub fn sheet_verdict(sheet: &[u8]) -> Verdict {
    let whole = sheet.len() % STEP_BYTES == 0 && (1..=MOST_STEPS).contains(&step_count(sheet));
    let steps = || 0..step_count(sheet);
    Verdict::unless(whole, WRONG_LENGTH, 0)
        .and_then(|| Verdict::lowest(steps().find(|&step| !fields_hold(&step_at(sheet, step))), OUT_OF_RANGE))
        .and_then(|| Verdict::lowest(steps().find(|&step| repeats_a_tag(sheet, step)), REPEATED_TAG))
        .and_then(|| Verdict::lowest(steps().find(|&step| jumps_nowhere(sheet, step)), UNKNOWN_TAG))
}

fn fields_hold(step: &Step) -> bool {
    // "Tag at least 1; outputs and mask below 1024; channel 0 for none or 1 to 10; level 0 or 1; timeout 0 to 40,000 ticks."
    let ranges = step.tag >= 1
        && step.outputs < WORD_LIMIT
        && step.mask < WORD_LIMIT
        && step.channel <= MOST_CHANNEL
        && step.level <= 1
        && step.timeout <= MOST_STEP_TIMEOUT;
    // "A jump holds a tag and is 0 exactly when its exit is absent (mask 0, channel 0, timeout 0)"
    let jumps = (step.fault_jump == 0) == (step.mask == 0)
        && (step.sequence_jump == 0) == (step.channel == 0)
        && (step.timeout_jump == 0) == (step.timeout == 0);
    // "with channel 0 the level is 0"
    ranges && jumps && (step.channel != 0 || step.level == 0)
}

/// "a tag used by an earlier step", at "the later step".
fn repeats_a_tag(sheet: &[u8], later: usize) -> bool {
    (0..later).any(|earlier| tag_at(sheet, earlier) == tag_at(sheet, later))
}

/// "a jump to a tag that no step has".
fn jumps_nowhere(sheet: &[u8], step: usize) -> bool {
    let step = step_at(sheet, step);
    [step.fault_jump, step.sequence_jump, step.timeout_jump]
        .iter()
        .any(|&jump| jump != 0 && find_tag(sheet, jump).is_none())
}
