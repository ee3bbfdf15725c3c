//! "One detector tick", and the engine tick of twenty.

use super::settings::{group_kind, settings_verdict, FaultType, Group, GroupKind, InputKind, Logic, Settings, GROUPS};
use super::verdict::{Verdict, UNREACHABLE_STATE, WORD_OUT_OF_RANGE, WRONG_LENGTH};

/// "A tick is 5 µs."
pub const TICK_MICROSECONDS: u16 = 5;
/// "A frame is 11 bytes".
pub const FRAME_BYTES: usize = 11;
/// "An engine tick is twenty detector ticks".
pub const ENGINE_TICK_FRAMES: usize = 20;
/// The byte of a frame that holds the "logic levels of VX1 to VX5 in bits 0 to 4".
pub const LEVELS_BYTE: usize = 10;
/// The first VX channel; "VX1 to VX4 take VP1 to VP4, VX5 takes VH", which are this much lower.
pub const FIRST_VX: usize = 5;

/// "All state starts false and zero."
#[derive(Clone, Copy, Debug, Default, PartialEq, Eq)]
pub struct ChannelState {
    pub over: bool,
    pub under: bool,
    pub filtered_fault: bool,
    pub fault_count: u16,
    pub filtered_level: bool,
    pub level_count: u16,
    pub left: u16,
}

#[derive(Clone, Copy, Debug, Default, PartialEq, Eq)]
pub struct Bank {
    pub channels: [ChannelState; GROUPS],
}

#[derive(Clone, Copy)]
pub struct Detected {
    pub verdict: Verdict,
    pub bank: Bank,
    pub faults: u16,
    pub warnings: u16,
}

pub fn start() -> Bank {
    Bank::default()
}

/// One detector tick.
pub fn tick(settings: &Settings, bank: &Bank, frame: &[u8]) -> Detected {
    detect(settings, bank, frame, 1)
}

/// "its call takes all twenty frames, 220 bytes, and makes every test first".
pub fn engine_tick(settings: &Settings, bank: &Bank, frames: &[u8]) -> Detected {
    detect(settings, bank, frames, ENGINE_TICK_FRAMES)
}

/// "Its fault and warning words (bit k for channel k) are those of the last of the twenty."
fn detect(settings: &Settings, bank: &Bank, frames: &[u8], count: usize) -> Detected {
    let verdict = detect_verdict(settings, bank, frames, count);
    let mut detected = Detected { verdict, bank: *bank, faults: 0, warnings: 0 };
    if verdict.is_accepted() {
        for frame in frames.chunks_exact(FRAME_BYTES) {
            (detected.faults, detected.warnings) = advance(settings, &mut detected.bank, frame);
        }
    }
    detected
}

/// "Tests run in the order 1, 4, 8, 9."
fn detect_verdict(settings: &Settings, bank: &Bank, frames: &[u8], count: usize) -> Verdict {
    Verdict::unless(frames.len() == count * FRAME_BYTES, WRONG_LENGTH, 0)
        .and_then(|| settings_verdict(settings))
        .and_then(|| bank_verdict(settings, bank))
        .and_then(|| {
            // "bits 5 to 7 must be 0, else 9"
            let in_range = |frame: &[u8]| frame[LEVELS_BYTE] < 32;
            Verdict::unless(frames.chunks_exact(FRAME_BYTES).all(in_range), WORD_OUT_OF_RANGE, 0)
        })
}

/// "Number 8 at the lowest channel".
fn bank_verdict(settings: &Settings, bank: &Bank) -> Verdict {
    let unreachable =
        |&channel: &usize| !reachable(group_kind(channel), &settings.groups[channel], &bank.channels[channel]);
    Verdict::lowest((0..GROUPS).find(unreachable), UNREACHABLE_STATE)
}

/// "a count above delay/5, or left at or above pulse/5 on edge, or left not 0 on level. VP and VH channels hold zero and false
/// in every logic field, else 8."
fn reachable(kind: GroupKind, group: &Group, state: &ChannelState) -> bool {
    let fault_counts = state.fault_count <= group.delay / TICK_MICROSECONDS;
    let logic = match kind {
        GroupKind::Vp | GroupKind::Vh => !state.filtered_level && state.level_count == 0 && state.left == 0,
        GroupKind::Vx => {
            let level_counts = state.level_count <= group.logic.delay / TICK_MICROSECONDS;
            let left_fits =
                if group.logic.edge { state.left < group.logic.pulse / TICK_MICROSECONDS } else { state.left == 0 };
            level_counts && left_fits
        }
    };
    fault_counts && logic
}

/// One tick of all ten channels: the fault word and the warning word.
fn advance(settings: &Settings, bank: &mut Bank, frame: &[u8]) -> (u16, u16) {
    let (mut faults, mut warnings) = (0, 0);
    for channel in 0..GROUPS {
        let group = &settings.groups[channel];
        let state = &mut bank.channels[channel];
        // "All parts of a channel advance at each tick."
        let analog = advance_analog(group, state, frame[measured_channel(channel, group.input)]);
        let level = channel >= FIRST_VX && frame[LEVELS_BYTE] >> (channel - FIRST_VX) & 1 == 1;
        let logic = advance_logic(&group.logic, state, level);
        let (fault, warning) = fault_and_warning(group.input, analog, logic);
        faults |= u16::from(fault) << channel;
        warnings |= u16::from(warning) << channel;
    }
    (faults, warnings)
}

/// "VX function 2 measures the sister pin's sample: VX1 to VX4 take VP1 to VP4, VX5 takes VH. Otherwise the pin's own."
fn measured_channel(channel: usize, input: InputKind) -> usize {
    if channel >= FIRST_VX && input == InputKind::LogicFaultWithAnalogWarning {
        channel - FIRST_VX
    } else {
        channel
    }
}

/// The two comparisons, the fault type and the filter: the analog fault.
fn advance_analog(group: &Group, state: &mut ChannelState, sample: u8) -> bool {
    // "when true it stays while sample > threshold less hysteresis, that level not going below 0"
    let over_level =
        if state.over { group.over_threshold.saturating_sub(group.over_hysteresis) } else { group.over_threshold };
    // "stays while sample < threshold plus hysteresis, that level not going above 255"
    let under_level =
        if state.under { group.under_threshold.saturating_add(group.under_hysteresis) } else { group.under_threshold };
    state.over = sample > over_level;
    state.under = sample < under_level;
    let raw = match group.fault_type {
        FaultType::Over => state.over,
        FaultType::UnderOrOver => state.under || state.over,
        FaultType::Under => state.under,
        FaultType::Off => false,
    };
    filter(raw, group.delay, &mut state.filtered_fault, &mut state.fault_count);
    state.filtered_fault
}

/// "if raw equals filtered, the count becomes 0; else, if the count has reached delay/5, filtered takes raw and the count becomes
/// 0; else the count rises by one."
fn filter(raw: bool, delay: u16, filtered: &mut bool, count: &mut u16) {
    if raw == *filtered {
        *count = 0;
    } else if *count >= delay / TICK_MICROSECONDS {
        *filtered = raw;
        *count = 0;
    } else {
        *count += 1;
    }
}

/// "Logic: invert, filter by byte 6, then level or edge."
fn advance_logic(logic: &Logic, state: &mut ChannelState, level: bool) -> bool {
    let before = state.filtered_level;
    filter(level != logic.invert, logic.delay, &mut state.filtered_level, &mut state.level_count);
    if !logic.edge {
        // "On level, nothing is left."
        state.left = 0;
        return state.filtered_level;
    }
    // "a filtered rise sets n to pulse/5, else n is what was left; the output is n > 0, and what is left is n less one"
    let rise = state.filtered_level && !before;
    let ticks = if rise { logic.pulse / TICK_MICROSECONDS } else { state.left };
    state.left = ticks.saturating_sub(1);
    ticks > 0
}

/// "VP and VH give the analog fault and no warning. VX by function: 0 analog fault; 1 logic fault; 2 logic fault, analog warning;
/// 3 neither."
fn fault_and_warning(input: InputKind, analog: bool, logic: bool) -> (bool, bool) {
    match input {
        InputKind::VpMid | InputKind::VpLow | InputKind::VpUltralow => (analog, false),
        InputKind::VhLow | InputKind::VhHigh => (analog, false),
        InputKind::AnalogFault => (analog, false),
        InputKind::LogicFault => (logic, false),
        InputKind::LogicFaultWithAnalogWarning => (logic, analog),
        InputKind::NoFunction => (false, false),
    }
}
