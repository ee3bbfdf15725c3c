//! Family 1: sheets translated into lent tables (kind 6).

use super::calls::translate_case;
use super::random::Random;
use super::sheets::{cells_of, damage, damage_length, lengthen, sheet_bytes, shorten, valid_steps};
use super::Family;
use crate::cases::Case;
use crate::paper::sheet::STEP_BYTES;
use crate::paper::table::{CELL_BYTES, MOST_CELLS};
use crate::paper::Step;

pub struct Translations {
    pub random: Random,
}

impl Family for Translations {
    fn next_case(&mut self) -> Case {
        let random = &mut self.random;
        let mut steps = valid_steps(random);
        fit(random, &mut steps);
        let lent = table_buffer(random, cells_of(&steps));
        let damages = match random.weighted(&[66, 14, 20]) {
            0 => 0,
            1 => 1,
            _ => random.between(2, 4),
        };
        for _ in 0..damages {
            damage(random, &mut steps);
        }
        let mut sheet = sheet_bytes(&steps);
        if random.chance(7) {
            damage_length(random, &mut sheet, STEP_BYTES);
        }
        translate_case(sheet, lent)
    }
}

/// Mostly as many cells as a table holds or fewer, at times exactly 63 or 64, at times as the steps come.
fn fit(random: &mut Random, steps: &mut [Step]) {
    match random.weighted(&[74, 12, 8, 6]) {
        0 => shorten(random, steps, MOST_CELLS),
        1 => {
            shorten(random, steps, MOST_CELLS);
            lengthen(random, steps, MOST_CELLS);
        }
        2 => {
            shorten(random, steps, MOST_CELLS);
            lengthen(random, steps, MOST_CELLS + 1);
        }
        _ => {}
    }
}

/// A buffer of random bytes: as long as the cells, longer, or too short.
fn table_buffer(random: &mut Random, cells: usize) -> Vec<u8> {
    let exact = CELL_BYTES * cells.min(2 * MOST_CELLS);
    let length = match random.weighted(&[40, 12, 12, 20, 6, 3, 4, 3]) {
        0 => exact,
        1 => exact + 1,
        2 => exact + random.below(60),
        3 => exact.max(CELL_BYTES * MOST_CELLS),
        4 => exact - 1,
        5 => exact - CELL_BYTES,
        6 => random.below(exact),
        _ => random.pick(&[0, 1, 11, 12]),
    };
    random.bytes(length)
}
