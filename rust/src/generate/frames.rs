//! Frames for the detectors: samples near thresholds and release levels, levels that toggle, each held for a while.

use super::random::Random;
use crate::paper::detectors::{FIRST_VX, FRAME_BYTES, LEVELS_BYTE};
use crate::paper::settings::GROUPS;
use crate::paper::{Group, InputKind, Settings};

/// What stands at the pins now, and for how many ticks more.
#[derive(Default)]
pub struct Signals {
    samples: [u8; GROUPS],
    sample_ticks: [usize; GROUPS],
    levels: u8,
    level_ticks: [usize; 5],
}

impl Signals {
    pub fn frames(&mut self, random: &mut Random, settings: &Settings, count: usize) -> Vec<u8> {
        let mut frames = Vec::with_capacity(FRAME_BYTES * count);
        for _ in 0..count {
            self.advance(random, settings);
            frames.extend_from_slice(&self.samples);
            frames.push(self.levels);
        }
        frames
    }

    fn advance(&mut self, random: &mut Random, settings: &Settings) {
        for channel in 0..GROUPS {
            if self.sample_ticks[channel] == 0 {
                let group = measuring_group(random, settings, channel);
                self.samples[channel] = sample_near(random, group);
                self.sample_ticks[channel] = ticks_near(random, usize::from(group.delay / 5));
            }
            self.sample_ticks[channel] -= 1;
        }
        for pin in 0..5 {
            if self.level_ticks[pin] == 0 {
                let logic = &settings.groups[FIRST_VX + pin].logic;
                self.levels ^= 1 << pin;
                self.level_ticks[pin] = ticks_near(random, usize::from(logic.delay / 5));
            }
            self.level_ticks[pin] -= 1;
        }
    }
}

/// The group of the channel, or that of the VX pin that measures this sample too.
fn measuring_group<'a>(random: &mut Random, settings: &'a Settings, channel: usize) -> &'a Group {
    let sister = &settings.groups[(channel + FIRST_VX).min(GROUPS - 1)];
    if channel < FIRST_VX && sister.input == InputKind::LogicFaultWithAnalogWarning && random.chance(50) {
        sister
    } else {
        &settings.groups[channel]
    }
}

/// A sample at a threshold or a release level, one beside it, or any.
fn sample_near(random: &mut Random, group: &Group) -> u8 {
    let level = match random.below(6) {
        0 => group.over_threshold,
        1 => group.over_threshold.saturating_sub(group.over_hysteresis),
        2 => group.under_threshold,
        3 => group.under_threshold.saturating_add(group.under_hysteresis),
        4 => random.pick(&[0, 255]),
        _ => random.byte(),
    };
    match random.below(3) {
        0 => level.saturating_sub(1),
        1 => level,
        _ => level.saturating_add(1),
    }
}

/// How long it stands: mostly about as long as the filter needs.
fn ticks_near(random: &mut Random, filter_ticks: usize) -> usize {
    match random.below(8) {
        0 => 1,
        1 => random.between(1, 4),
        2 => filter_ticks.max(1),
        3 | 4 => filter_ticks + 1,
        5 => filter_ticks + 2,
        _ => filter_ticks + random.between(1, 30),
    }
}

/// Sets one of the bits 5 to 7 in one byte of levels.
pub fn damage_levels(random: &mut Random, frames: &mut [u8]) {
    let count = frames.len() / FRAME_BYTES;
    if count > 0 {
        let frame = random.below(count);
        frames[FRAME_BYTES * frame + LEVELS_BYTE] |= 1 << random.between(5, 7);
    }
}
