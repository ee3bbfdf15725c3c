//! Family 2: images, whole and damaged, read and written again (kind 1).

use super::calls::read_case;
use super::random::Random;
use super::{other_length, Family};
use crate::cases::Case;
use crate::paper::image::IMAGE_BYTES;
use crate::paper::{blank, group_kind, GroupKind};

pub struct Images {
    pub random: Random,
}

impl Family for Images {
    fn next_case(&mut self) -> Case {
        let random = &mut self.random;
        let mut image = valid_image(random);
        match random.weighted(&[46, 2, 20, 22, 3, 7]) {
            0 => {}
            1 => image = blank().to_vec(),
            2 => damage(random, &mut image),
            3 => {
                for _ in 0..random.between(2, 4) {
                    damage(random, &mut image);
                }
            }
            4 => image = random.bytes(IMAGE_BYTES),
            _ => {
                let length = other_length(random, IMAGE_BYTES, 200);
                image = random.bytes(length);
            }
        }
        let lent = writer_buffer(random);
        read_case(image, lent)
    }
}

/// The writer's buffer with random bytes, mostly of the right length.
pub fn writer_buffer(random: &mut Random) -> Vec<u8> {
    let length = if random.chance(88) { IMAGE_BYTES } else { other_length(random, IMAGE_BYTES, 200) };
    random.bytes(length)
}

/// Eighty bytes with no reserved bit and printed codes only.
pub fn valid_image(random: &mut Random) -> Vec<u8> {
    (0..IMAGE_BYTES).map(|address| valid_byte(random, address)).collect()
}

fn valid_byte(random: &mut Random, address: usize) -> u8 {
    match (address % 8, group_kind(address / 8)) {
        (0 | 2, _) => random.byte(),
        (1 | 3 | 4, _) => random.byte() & 0x1F,
        (5, GroupKind::Vh) => random.byte() & 0x01,
        (5, _) => random.byte() & 0x03,
        (6, GroupKind::Vx) => random.byte() & 0x7F,
        (6, _) => 0,
        _ => (random.byte() & 0x30) | random.pick(&[0, 1, 2, 3, 4, 5, 6, 7, 8, 9, 10, 11, 14, 15]),
    }
}

/// One byte changed: at random, by one bit, or at an output byte in one of the ways that are refused there.
fn damage(random: &mut Random, image: &mut [u8]) {
    let address = random.below(image.len());
    let output = address / 8 * 8 + 7;
    match random.below(8) {
        0 => image[address] = random.byte(),
        1 => image[address] ^= 1 << random.below(8),
        2 => image[address] |= 0x20 << random.below(3),
        3 => image[output] = (image[output] & 0xF0) | random.pick(&[12, 13]),
        4 => image[output] = (image[output] & 0x0F) | random.pick(&[0x40, 0x50, 0x60, 0x70]),
        5 => image[output] = random.pick(&[0x10, 0x11, 0x1C, 0x40, 0x80, 0xC0, 0x8C, 0xFF]),
        6 => image[output - 1] = random.pick(&[1, 0x7F, 0x80, 0xFF]),
        _ => image[output - 2] = random.pick(&[1, 2, 3, 4, 0x80]),
    }
}
