//! Family 6: engine ticks and single ticks of the detectors, and pins (kinds 4, 3, 5).

use super::calls::{detector_case, pins_case};
use super::frames::{damage_levels, Signals};
use super::random::Random;
use super::settings::{damage as damage_settings, valid_settings};
use super::sheets::too_large_word;
use super::{other_length, Family};
use crate::cases::Case;
use crate::paper::detectors::{start, ENGINE_TICK_FRAMES, FIRST_VX};
use crate::paper::{Bank, ChannelState, Group, Settings};

/// A run: the bank after a tick is the bank before the next.
pub struct Detectors {
    pub random: Random,
    pub settings: Settings,
    pub bank: Bank,
    pub signals: Signals,
    pub ticks_left: usize,
}

impl Detectors {
    pub fn new(mut random: Random) -> Detectors {
        let settings = valid_settings(&mut random);
        Detectors { random, settings, bank: start(), signals: Signals::default(), ticks_left: 0 }
    }

    fn begin_run(&mut self) {
        self.settings = valid_settings(&mut self.random);
        self.bank = if self.random.chance(50) { start() } else { valid_bank(&mut self.random, &self.settings) };
        self.signals = Signals::default();
        self.ticks_left = self.random.between(2, 24);
    }

    /// The next tick of the run; or a damaged call beside it, after which the run goes on as it was.
    fn next_tick(&mut self) -> Case {
        let random = &mut self.random;
        let (kind, count) = if random.chance(70) { (4, ENGINE_TICK_FRAMES) } else { (3, 1) };
        let mut frames = self.signals.frames(random, &self.settings, count);
        if random.chance(30) {
            let (mut settings, mut bank) = (self.settings, self.bank);
            for _ in 0..random.weighted(&[0, 60, 25, 15]) {
                damage(random, &mut settings, &mut bank, &mut frames);
            }
            return detector_case(kind, &settings, &bank, &frames).0;
        }
        self.ticks_left -= 1;
        let (case, detected) = detector_case(kind, &self.settings, &self.bank, &frames);
        self.bank = detected.bank;
        case
    }

    fn pins(&mut self) -> Case {
        let random = &mut self.random;
        let mut settings = valid_settings(random);
        if random.chance(20) {
            damage_settings(random, &mut settings);
        }
        let outputs = match random.weighted(&[60, 20, 20]) {
            0 => random.below(1024) as u16,
            1 => random.pick(&[0, 1, 512, 1023]),
            _ => too_large_word(random),
        };
        pins_case(&settings, outputs)
    }
}

impl Family for Detectors {
    fn next_case(&mut self) -> Case {
        if self.random.chance(14) {
            return self.pins();
        }
        if self.ticks_left == 0 {
            self.begin_run();
        }
        self.next_tick()
    }
}

/// A bank that the settings allow, with counts and pulses often at their last value.
fn valid_bank(random: &mut Random, settings: &Settings) -> Bank {
    Bank { channels: std::array::from_fn(|channel| valid_channel(random, channel, &settings.groups[channel])) }
}

fn valid_channel(random: &mut Random, channel: usize, group: &Group) -> ChannelState {
    let mut state = ChannelState {
        over: random.chance(50),
        under: random.chance(50),
        filtered_fault: random.chance(50),
        fault_count: up_to(random, group.delay / 5),
        ..ChannelState::default()
    };
    if channel >= FIRST_VX {
        state.filtered_level = random.chance(50);
        state.level_count = up_to(random, group.logic.delay / 5);
        if group.logic.edge {
            state.left = up_to(random, group.logic.pulse / 5 - 1);
        }
    }
    state
}

/// A number from 0 to the last, often at one of the two ends.
fn up_to(random: &mut Random, last: u16) -> u16 {
    match random.below(4) {
        0 => 0,
        1 => last,
        2 => last.min(random.between(1, 3) as u16),
        _ => random.below(usize::from(last) + 1) as u16,
    }
}

/// One of the four things that a tick tests is made wrong.
fn damage(random: &mut Random, settings: &mut Settings, bank: &mut Bank, frames: &mut Vec<u8>) {
    match random.weighted(&[12, 20, 40, 20, 8]) {
        0 => {
            let length = match random.below(4) {
                0 => random.pick(&[11, 22, 209, 219, 220, 221, 231]),
                1 => random.below(21),
                _ => other_length(random, frames.len(), 440),
            };
            frames.resize(length, 0);
        }
        1 => damage_settings(random, settings),
        2 => {
            let channel = random.below(bank.channels.len());
            damage_channel(random, channel, &settings.groups[channel], &mut bank.channels[channel]);
        }
        3 => damage_levels(random, frames),
        _ => *settings = valid_settings(random),
    }
}

/// A count or a pulse at its last value or one beyond; on VP and VH any logic field that is not zero or false.
fn damage_channel(random: &mut Random, channel: usize, group: &Group, state: &mut ChannelState) {
    match random.below(4) {
        0 => state.fault_count = about(random, group.delay / 5),
        1 if channel < FIRST_VX => state.filtered_level = true,
        1 | 2 => state.level_count = about(random, group.logic.delay / 5),
        _ => state.left = about(random, if group.logic.edge { (group.logic.pulse / 5).max(1) - 1 } else { 0 }),
    }
}

fn about(random: &mut Random, last: u16) -> u16 {
    let any = random.word();
    random.pick(&[last, last + 1, last + 1, last + 256, 65_535, any])
}
