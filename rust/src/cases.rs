//! A case of the stream that docs/CASES.md describes, and how its parts are written as bytes.

use crate::for_c::state_bytes;
use crate::paper::{Bank, Exit, Settings, State, Verdict};
use std::io::{self, Write};

pub struct Case {
    /// The kind of call, 1 to 18.
    pub kind: u8,
    pub given: Vec<u8>,
    pub lent: Vec<u8>,
    pub expected: Vec<u8>,
    /// The verdicts that the answer holds, in its order. They are for the counts and not written a second time.
    pub verdicts: Vec<Verdict>,
    /// The exit that an accepted tick of the engine took. For the counts too.
    pub exit: Option<Exit>,
}

impl Case {
    pub fn new(kind: u8, given: Vec<u8>, lent: Vec<u8>) -> Case {
        Case { kind, given, lent, expected: Vec::new(), verdicts: Vec::new(), exit: None }
    }

    /// "the kind of call", "the lengths of the three parts that follow", the parts.
    pub fn write(&self, to: &mut impl Write) -> io::Result<()> {
        to.write_all(&[self.kind])?;
        for part in [&self.given, &self.lent, &self.expected] {
            assert!(part.len() <= 4096, "a part has at most 4096 bytes");
            to.write_all(&(part.len() as u16).to_le_bytes())?;
        }
        to.write_all(&self.given)?;
        to.write_all(&self.lent)?;
        to.write_all(&self.expected)
    }

    /// "A verdict, 3 bytes: number (1), place (2)."
    pub fn expect_verdict(&mut self, verdict: Verdict) {
        self.verdicts.push(verdict);
        self.expected.push(verdict.number);
        put_word(&mut self.expected, verdict.place as u16);
    }
}

pub fn put_word(bytes: &mut Vec<u8>, word: u16) {
    bytes.extend_from_slice(&word.to_le_bytes());
}

/// "Settings, 160 bytes: sixteen for each group in order". The enums of the paper are declared in the order of the codes.
pub fn put_settings(bytes: &mut Vec<u8>, settings: &Settings) {
    for group in &settings.groups {
        bytes.extend_from_slice(&[
            group.over_threshold,
            group.over_hysteresis,
            group.under_threshold,
            group.under_hysteresis,
        ]);
        put_word(bytes, group.delay);
        bytes.push(group.fault_type as u8);
        bytes.push(group.input as u8);
        bytes.push(u8::from(group.logic.invert));
        bytes.push(u8::from(group.logic.edge));
        put_word(bytes, group.logic.pulse);
        put_word(bytes, group.logic.delay);
        bytes.push(group.source as u8);
        bytes.push(group.pull as u8);
    }
}

/// "A bank, 100 bytes: ten for each channel in order".
pub fn put_bank(bytes: &mut Vec<u8>, bank: &Bank) {
    for channel in &bank.channels {
        bytes.push(u8::from(channel.over));
        bytes.push(u8::from(channel.under));
        bytes.push(u8::from(channel.filtered_fault));
        put_word(bytes, channel.fault_count);
        bytes.push(u8::from(channel.filtered_level));
        put_word(bytes, channel.level_count);
        put_word(bytes, channel.left);
    }
}

/// "A state, 8 bytes".
pub fn put_state(bytes: &mut Vec<u8>, state: State) {
    bytes.extend_from_slice(&state_bytes(state));
}
