//! The settings of ten groups, what their codes mean, and which settings a group can hold.

use super::verdict::{Verdict, OUT_OF_RANGE};

pub const GROUPS: usize = 10;
pub const GROUP_BYTES: usize = 8;

/// "Filter codes 0 to 7 mean 0, 5, 10, 20, 30, 50, 75, 100 µs."
pub const DELAYS: [u16; 8] = [0, 5, 10, 20, 30, 50, 75, 100];

/// "Pulse codes mean 10, 100, 1000, 10,000 µs." (On VX4 and VX5 too, where the source prints 0 for code 0.)
pub const PULSES: [u16; 4] = [10, 100, 1000, 10_000];

/// "hysteresis in bits 4:0".
pub const MOST_HYSTERESIS: u8 = 31;

/// "fault type in bits 1:0 (0 over, 1 under or over, 2 under, 3 off)".
#[derive(Clone, Copy, Debug, PartialEq, Eq)]
pub enum FaultType {
    Over,
    UnderOrOver,
    Under,
    Off,
}

/// What byte 5 says: the range of VP, the range of VH, or the function of VX.
#[derive(Clone, Copy, Debug, PartialEq, Eq)]
pub enum InputKind {
    VpMid,
    VpLow,
    VpUltralow,
    VhLow,
    VhHigh,
    AnalogFault,
    LogicFault,
    LogicFaultWithAnalogWarning,
    NoFunction,
}

/// "Bits 6:4: 0 disabled, 1 engine, 2 low, 3 high".
#[derive(Clone, Copy, Debug, PartialEq, Eq)]
pub enum Source {
    Disabled,
    Engine,
    Low,
    High,
}

/// "0 and 1 none; 2 and 3 300 kΩ to VDDCAP; 4 to 11 weak (even) or push-pull (odd) to VP1, VP2, VP3, VP4 in turn; 14 weak and
/// 15 push-pull to VDDCAP".
#[derive(Clone, Copy, Debug, PartialEq, Eq)]
pub enum Pull {
    NoPull,
    ThreeHundredKilohm,
    WeakVp1,
    PushPullVp1,
    WeakVp2,
    PushPullVp2,
    WeakVp3,
    PushPullVp3,
    WeakVp4,
    PushPullVp4,
    WeakVddcap,
    PushPullVddcap,
}

/// The three sorts of group: "VP1, VP2, VP3, VP4, VH, VX1 to VX5".
#[derive(Clone, Copy, Debug, PartialEq, Eq)]
pub enum GroupKind {
    Vp,
    Vh,
    Vx,
}

/// The logic part, byte 6: delays and pulses in µs.
#[derive(Clone, Copy, Debug, PartialEq, Eq)]
pub struct Logic {
    pub invert: bool,
    pub edge: bool,
    pub pulse: u16,
    pub delay: u16,
}

#[derive(Clone, Copy, Debug, PartialEq, Eq)]
pub struct Group {
    pub over_threshold: u8,
    pub over_hysteresis: u8,
    pub under_threshold: u8,
    pub under_hysteresis: u8,
    pub delay: u16,
    pub fault_type: FaultType,
    pub input: InputKind,
    pub logic: Logic,
    pub source: Source,
    pub pull: Pull,
}

#[derive(Clone, Copy, Debug, PartialEq, Eq)]
pub struct Settings {
    pub groups: [Group; GROUPS],
}

/// "in the order VP1, VP2, VP3, VP4, VH, VX1 to VX5".
pub fn group_kind(group: usize) -> GroupKind {
    match group {
        0..=3 => GroupKind::Vp,
        4 => GroupKind::Vh,
        _ => GroupKind::Vx,
    }
}

pub const NO_LOGIC: Logic = Logic { invert: false, edge: false, pulse: 0, delay: 0 };

/// "Zero (code 0 for a named kind) stands in every other field of its answer."
pub fn zero_settings() -> Settings {
    let zero_group = |group: usize| Group {
        over_threshold: 0,
        over_hysteresis: 0,
        under_threshold: 0,
        under_hysteresis: 0,
        delay: 0,
        fault_type: FaultType::Over,
        input: match group_kind(group) {
            GroupKind::Vp => InputKind::VpMid,
            GroupKind::Vh => InputKind::VhLow,
            GroupKind::Vx => InputKind::AnalogFault,
        },
        logic: NO_LOGIC,
        source: Source::Disabled,
        pull: Pull::NoPull,
    };
    Settings { groups: std::array::from_fn(zero_group) }
}

/// "any setting that no byte of its group can mean": whether byte 5 of such a group has a code for this kind.
pub fn input_fits(kind: GroupKind, input: InputKind) -> bool {
    let of_input = match input {
        InputKind::VpMid | InputKind::VpLow | InputKind::VpUltralow => GroupKind::Vp,
        InputKind::VhLow | InputKind::VhHigh => GroupKind::Vh,
        InputKind::AnalogFault
        | InputKind::LogicFault
        | InputKind::LogicFaultWithAnalogWarning
        | InputKind::NoFunction => GroupKind::Vx,
    };
    of_input == kind
}

/// "a logic part on VP or VH among them": byte 6 of these groups can mean nothing but zero.
fn logic_fits(kind: GroupKind, logic: &Logic) -> bool {
    match kind {
        GroupKind::Vx => PULSES.contains(&logic.pulse) && DELAYS.contains(&logic.delay),
        GroupKind::Vp | GroupKind::Vh => *logic == NO_LOGIC,
    }
}

/// The lowest byte of the group that cannot hold its setting: "a hysteresis above 31 or a time that the table lacks ... lowest
/// address first".
fn bad_byte(kind: GroupKind, group: &Group) -> Option<usize> {
    if group.over_hysteresis > MOST_HYSTERESIS {
        Some(1)
    } else if group.under_hysteresis > MOST_HYSTERESIS {
        Some(3)
    } else if !DELAYS.contains(&group.delay) {
        Some(4)
    } else if !input_fits(kind, group.input) {
        Some(5)
    } else if !logic_fits(kind, &group.logic) {
        Some(6)
    } else {
        None
    }
}

/// "number 4 at the address it would go to".
pub fn settings_verdict(settings: &Settings) -> Verdict {
    for (number, group) in settings.groups.iter().enumerate() {
        if let Some(byte) = bad_byte(group_kind(number), group) {
            return Verdict::refused(OUT_OF_RANGE, GROUP_BYTES * number + byte);
        }
    }
    Verdict::accepted()
}
