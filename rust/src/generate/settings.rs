//! Family 3: settings, whole and damaged, tested and written (kind 2). Other families use these settings too.

use super::calls::write_case;
use super::images::{valid_image, writer_buffer};
use super::random::Random;
use super::Family;
use crate::cases::Case;
use crate::paper::settings::{DELAYS, NO_LOGIC, PULSES};
use crate::paper::{group_kind, read, FaultType, Group, GroupKind, InputKind, Logic, Pull, Settings, Source};

pub struct Writing {
    pub random: Random,
}

impl Family for Writing {
    fn next_case(&mut self) -> Case {
        let random = &mut self.random;
        let mut settings = if random.chance(25) { read(&valid_image(random)).settings } else { valid_settings(random) };
        let damages = match random.weighted(&[58, 18, 24]) {
            0 => 0,
            1 => 1,
            _ => random.between(2, 4),
        };
        for _ in 0..damages {
            damage(random, &mut settings);
        }
        let lent = writer_buffer(random);
        write_case(&settings, lent)
    }
}

const FAULT_TYPES: [FaultType; 4] = [FaultType::Over, FaultType::UnderOrOver, FaultType::Under, FaultType::Off];

const VP_INPUTS: [InputKind; 3] = [InputKind::VpMid, InputKind::VpLow, InputKind::VpUltralow];
const VH_INPUTS: [InputKind; 2] = [InputKind::VhLow, InputKind::VhHigh];
const VX_INPUTS: [InputKind; 4] =
    [InputKind::AnalogFault, InputKind::LogicFault, InputKind::LogicFaultWithAnalogWarning, InputKind::NoFunction];

const SOURCES: [Source; 4] = [Source::Disabled, Source::Engine, Source::Low, Source::High];

const PULLS: [Pull; 12] = [
    Pull::NoPull,
    Pull::ThreeHundredKilohm,
    Pull::WeakVp1,
    Pull::PushPullVp1,
    Pull::WeakVp2,
    Pull::PushPullVp2,
    Pull::WeakVp3,
    Pull::PushPullVp3,
    Pull::WeakVp4,
    Pull::PushPullVp4,
    Pull::WeakVddcap,
    Pull::PushPullVddcap,
];

pub fn valid_settings(random: &mut Random) -> Settings {
    Settings { groups: std::array::from_fn(|group| valid_group(random, group_kind(group))) }
}

fn valid_group(random: &mut Random, kind: GroupKind) -> Group {
    Group {
        over_threshold: threshold(random),
        over_hysteresis: hysteresis(random),
        under_threshold: threshold(random),
        under_hysteresis: hysteresis(random),
        delay: random.pick(&DELAYS),
        fault_type: random.pick(&FAULT_TYPES),
        input: match kind {
            GroupKind::Vp => random.pick(&VP_INPUTS),
            GroupKind::Vh => random.pick(&VH_INPUTS),
            GroupKind::Vx => random.pick(&VX_INPUTS),
        },
        logic: match kind {
            GroupKind::Vx => valid_logic(random),
            GroupKind::Vp | GroupKind::Vh => NO_LOGIC,
        },
        source: random.pick(&SOURCES),
        pull: random.pick(&PULLS),
    }
}

fn valid_logic(random: &mut Random) -> Logic {
    Logic {
        invert: random.chance(50),
        edge: random.chance(60),
        pulse: random.pick(&PULSES),
        delay: random.pick(&DELAYS),
    }
}

fn threshold(random: &mut Random) -> u8 {
    if random.chance(25) {
        random.pick(&[0, 1, 5, 30, 31, 32, 200, 224, 225, 250, 254, 255])
    } else {
        random.byte()
    }
}

fn hysteresis(random: &mut Random) -> u8 {
    if random.chance(30) {
        random.pick(&[0, 1, 30, 31])
    } else {
        random.byte() & 31
    }
}

/// One setting of one group changed, mostly to one that no byte of the group can mean.
pub fn damage(random: &mut Random, settings: &mut Settings) {
    let number = random.below(settings.groups.len());
    let kind = group_kind(number);
    let group = &mut settings.groups[number];
    match random.below(6) {
        0 => group.over_hysteresis = bad_hysteresis(random),
        1 => group.under_hysteresis = bad_hysteresis(random),
        2 => group.delay = other_time(random, &DELAYS),
        3 => {
            group.input = match random.below(3) {
                0 => random.pick(&VP_INPUTS),
                1 => random.pick(&VH_INPUTS),
                _ => random.pick(&VX_INPUTS),
            }
        }
        _ => damage_logic(random, kind, &mut group.logic),
    }
}

fn bad_hysteresis(random: &mut Random) -> u8 {
    if random.chance(60) {
        random.pick(&[31, 32, 33, 63, 64, 128, 255])
    } else {
        random.between(32, 255) as u8
    }
}

/// One field of the logic part. On VP and VH any change is refused; on VX the two bits are free.
fn damage_logic(random: &mut Random, kind: GroupKind, logic: &mut Logic) {
    let field = if kind == GroupKind::Vx { random.between(2, 3) } else { random.below(4) };
    match field {
        0 => logic.invert = true,
        1 => logic.edge = true,
        2 => logic.pulse = other_time(random, &PULSES),
        _ => logic.delay = other_time(random, &DELAYS),
    }
}

/// A time near one of the table, one with the same low byte, one of the other table, or any.
fn other_time(random: &mut Random, table: &[u16]) -> u16 {
    let time = random.pick(table);
    match random.below(8) {
        0 => time.wrapping_sub(1),
        1 => time + 1,
        2 => time + 256,
        3 => time + 5,
        4 => random.pick(&PULSES),
        5 => random.pick(&DELAYS),
        6 => random.pick(&[0, 1, 4, 7, 15, 25, 99, 101, 255, 256, 9_999, 10_001, 65_535]),
        _ => random.word(),
    }
}
