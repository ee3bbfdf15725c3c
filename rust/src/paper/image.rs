//! "Eighty bytes in ten groups": reading, writing, the blank image.

use super::settings::*;
use super::verdict::{Verdict, ACCEPTED, CANNOT_BE_USED, CODE_NOT_PRINTED, WRONG_LENGTH};

/// "The image is exactly 80 bytes".
pub const IMAGE_BYTES: usize = GROUPS * GROUP_BYTES;

pub struct Reading {
    pub verdict: Verdict,
    pub settings: Settings,
}

/// "The blank image is eighty zero bytes, handed out by value".
pub fn blank() -> [u8; IMAGE_BYTES] {
    [0; IMAGE_BYTES]
}

pub fn read(image: &[u8]) -> Reading {
    let verdict = image_verdict(image);
    let mut settings = zero_settings();
    if verdict.is_accepted() {
        for (number, group) in settings.groups.iter_mut().enumerate() {
            *group = read_group(group_kind(number), &image[GROUP_BYTES * number..GROUP_BYTES * (number + 1)]);
        }
    }
    Reading { verdict, settings }
}

/// "The lowest bad address is reported".
fn image_verdict(image: &[u8]) -> Verdict {
    if image.len() != IMAGE_BYTES {
        return Verdict::refused(WRONG_LENGTH, 0);
    }
    for (address, &byte) in image.iter().enumerate() {
        let number = byte_number(group_kind(address / GROUP_BYTES), address % GROUP_BYTES, byte);
        if number != ACCEPTED {
            return Verdict::refused(number, address);
        }
    }
    Verdict::accepted()
}

/// "at one byte, number 2 before number 3".
fn byte_number(kind: GroupKind, byte_of_group: usize, byte: u8) -> u8 {
    if byte & reserved_bits(kind, byte_of_group) != 0 {
        CANNOT_BE_USED
    } else if byte_of_group == 7 && (source_of(byte >> 4).is_none() || pull_of(byte & 15).is_none()) {
        CODE_NOT_PRINTED
    } else {
        ACCEPTED
    }
}

/// The reserved bits of each byte; an unlisted byte is reserved as a whole.
fn reserved_bits(kind: GroupKind, byte_of_group: usize) -> u8 {
    match (byte_of_group, kind) {
        (0 | 2, _) => 0b0000_0000,
        (1 | 3 | 4, _) => 0b1110_0000,
        (5, GroupKind::Vp | GroupKind::Vx) => 0b1111_1100,
        (5, GroupKind::Vh) => 0b1111_1110,
        (6, GroupKind::Vx) => 0b1000_0000,
        (6, GroupKind::Vp | GroupKind::Vh) => 0b1111_1111,
        _ => 0b1000_0000,
    }
}

fn read_group(kind: GroupKind, bytes: &[u8]) -> Group {
    Group {
        over_threshold: bytes[0],
        over_hysteresis: bytes[1] & 31,
        under_threshold: bytes[2],
        under_hysteresis: bytes[3] & 31,
        delay: DELAYS[usize::from(bytes[4] >> 2 & 7)],
        fault_type: match bytes[4] & 3 {
            0 => FaultType::Over,
            1 => FaultType::UnderOrOver,
            2 => FaultType::Under,
            _ => FaultType::Off,
        },
        input: input_of(kind, bytes[5]),
        logic: match kind {
            GroupKind::Vx => logic_of(bytes[6]),
            GroupKind::Vp | GroupKind::Vh => NO_LOGIC,
        },
        source: source_of(bytes[7] >> 4 & 7).unwrap_or(Source::Disabled),
        pull: pull_of(bytes[7] & 15).unwrap_or(Pull::NoPull),
    }
}

/// "VP: range in bits 1:0 (0 mid, 1 low, 2 and 3 ultralow) ... VH: bit 0 (0 low, 1 high) ... VX: function in bits 1:0".
fn input_of(kind: GroupKind, byte: u8) -> InputKind {
    match (kind, byte & 3) {
        (GroupKind::Vp, 0) => InputKind::VpMid,
        (GroupKind::Vp, 1) => InputKind::VpLow,
        (GroupKind::Vp, _) => InputKind::VpUltralow,
        (GroupKind::Vh, code) if code & 1 == 0 => InputKind::VhLow,
        (GroupKind::Vh, _) => InputKind::VhHigh,
        (GroupKind::Vx, 0) => InputKind::AnalogFault,
        (GroupKind::Vx, 1) => InputKind::LogicFault,
        (GroupKind::Vx, 2) => InputKind::LogicFaultWithAnalogWarning,
        (GroupKind::Vx, _) => InputKind::NoFunction,
    }
}

/// "bit 6 invert, bit 5 edge, bits 4:3 pulse code, bits 2:0 filter code".
fn logic_of(byte: u8) -> Logic {
    Logic {
        invert: byte >> 6 & 1 == 1,
        edge: byte >> 5 & 1 == 1,
        pulse: PULSES[usize::from(byte >> 3 & 3)],
        delay: DELAYS[usize::from(byte & 7)],
    }
}

/// "0 disabled, 1 engine, 2 low, 3 high; 4 to 7 are unprinted".
fn source_of(code: u8) -> Option<Source> {
    match code {
        0 => Some(Source::Disabled),
        1 => Some(Source::Engine),
        2 => Some(Source::Low),
        3 => Some(Source::High),
        _ => None,
    }
}

/// "Bits 3:0 ... 12 and 13 unprinted".
fn pull_of(code: u8) -> Option<Pull> {
    match code {
        0 | 1 => Some(Pull::NoPull),
        2 | 3 => Some(Pull::ThreeHundredKilohm),
        4 => Some(Pull::WeakVp1),
        5 => Some(Pull::PushPullVp1),
        6 => Some(Pull::WeakVp2),
        7 => Some(Pull::PushPullVp2),
        8 => Some(Pull::WeakVp3),
        9 => Some(Pull::PushPullVp3),
        10 => Some(Pull::WeakVp4),
        11 => Some(Pull::PushPullVp4),
        14 => Some(Pull::WeakVddcap),
        15 => Some(Pull::PushPullVddcap),
        _ => None,
    }
}

/// "The writer's buffer is exactly 80 bytes, tested before the settings".
pub fn write(settings: &Settings, buffer: &mut [u8]) -> Verdict {
    if buffer.len() != IMAGE_BYTES {
        return Verdict::refused(WRONG_LENGTH, 0);
    }
    let verdict = settings_verdict(settings);
    if verdict.is_accepted() {
        for (group, part) in settings.groups.iter().zip(buffer.chunks_exact_mut(GROUP_BYTES)) {
            part.copy_from_slice(&group_bytes(group));
        }
    }
    verdict
}

/// The eight bytes of accepted settings: "Normal bytes use the lowest code where two codes mean the same."
fn group_bytes(group: &Group) -> [u8; GROUP_BYTES] {
    [
        group.over_threshold,
        group.over_hysteresis,
        group.under_threshold,
        group.under_hysteresis,
        time_code(&DELAYS, group.delay) << 2 | fault_type_code(group.fault_type),
        input_code(group.input),
        logic_code(&group.logic),
        source_code(group.source) << 4 | pull_code(group.pull),
    ]
}

/// The place of a time in its table. Settings that are written were tested first, so the table has it.
fn time_code(table: &[u16], time: u16) -> u8 {
    table.iter().position(|&entry| entry == time).unwrap_or(0) as u8
}

fn fault_type_code(fault_type: FaultType) -> u8 {
    match fault_type {
        FaultType::Over => 0,
        FaultType::UnderOrOver => 1,
        FaultType::Under => 2,
        FaultType::Off => 3,
    }
}

fn input_code(input: InputKind) -> u8 {
    match input {
        InputKind::VpMid | InputKind::VhLow | InputKind::AnalogFault => 0,
        InputKind::VpLow | InputKind::VhHigh | InputKind::LogicFault => 1,
        InputKind::VpUltralow | InputKind::LogicFaultWithAnalogWarning => 2,
        InputKind::NoFunction => 3,
    }
}

/// Byte 6. The zero logic part of VP and VH has no pulse of the table, and its byte is 0.
fn logic_code(logic: &Logic) -> u8 {
    u8::from(logic.invert) << 6
        | u8::from(logic.edge) << 5
        | time_code(&PULSES, logic.pulse) << 3
        | time_code(&DELAYS, logic.delay)
}

fn source_code(source: Source) -> u8 {
    match source {
        Source::Disabled => 0,
        Source::Engine => 1,
        Source::Low => 2,
        Source::High => 3,
    }
}

fn pull_code(pull: Pull) -> u8 {
    match pull {
        Pull::NoPull => 0,
        Pull::ThreeHundredKilohm => 2,
        Pull::WeakVp1 => 4,
        Pull::PushPullVp1 => 5,
        Pull::WeakVp2 => 6,
        Pull::PushPullVp2 => 7,
        Pull::WeakVp3 => 8,
        Pull::PushPullVp3 => 9,
        Pull::WeakVp4 => 10,
        Pull::PushPullVp4 => 11,
        Pull::WeakVddcap => 14,
        Pull::PushPullVddcap => 15,
    }
}
