//! Tables, whole and damaged: translated from sheets, or of cells at random.

use super::random::Random;
use super::sheets::{sheet_bytes, shorten, ten_bits, too_large_word, valid_steps};
use crate::paper::table::{cell_count, write_cell, CELL_BYTES, MOST_CELLS};
use crate::paper::{cell_at, translate, Cell};

pub fn valid_table(random: &mut Random) -> Vec<u8> {
    if random.chance(60) {
        translated_table(random)
    } else {
        random_table(random)
    }
}

fn translated_table(random: &mut Random) -> Vec<u8> {
    let mut steps = valid_steps(random);
    shorten(random, &mut steps, MOST_CELLS);
    let mut table = vec![0; CELL_BYTES * MOST_CELLS];
    let translation = translate(&sheet_bytes(&steps), &mut table);
    assert!(translation.verdict.is_accepted(), "valid steps of few cells are translated");
    table.truncate(CELL_BYTES * usize::from(translation.cells));
    table
}

/// Cells that pass the table's tests, though no sheet may have made them.
fn random_table(random: &mut Random) -> Vec<u8> {
    let cells = match random.weighted(&[10, 50, 30, 10]) {
        0 => 1,
        1 => random.between(2, 8),
        2 => random.between(9, 62),
        _ => MOST_CELLS,
    };
    let mut table = vec![0; CELL_BYTES * cells];
    for record in table.chunks_exact_mut(CELL_BYTES) {
        write_cell(&valid_cell(random, cells), record);
    }
    table
}

fn valid_cell(random: &mut Random, cells: usize) -> Cell {
    let mask = if random.chance(55) { ten_bits(random) } else { 0 };
    let channel = if random.chance(60) { random.between(1, 10) as u8 } else { 0 };
    let timeout = match random.weighted(&[30, 40, 20, 10]) {
        0 => 0,
        1 => random.between(1, 5) as u16,
        2 => random.pick(&[3_999, 4_000]),
        _ => random.between(1, 4_000) as u16,
    };
    let mut next = |present: bool| if present { random.below(cells) as u8 } else { 0 };
    let fault_next = next(mask != 0);
    let sequence_next = next(channel != 0);
    let timeout_next = next(timeout != 0);
    Cell {
        outputs: random.below(1024) as u16,
        mask,
        fault_next,
        channel,
        level: if channel != 0 { random.below(2) as u8 } else { 0 },
        sequence_next,
        timeout,
        timeout_next,
        step: if random.chance(30) { random.pick(&[0, 1, 62]) } else { random.below(63) as u8 },
    }
}

/// One field of one cell changed, mostly to one out of its range. Gives the number of the cell.
pub fn damage(random: &mut Random, table: &mut [u8]) -> usize {
    let cells = cell_count(table);
    let number = random.below(cells);
    let mut cell = cell_at(table, number);
    match random.below(9) {
        0 => cell.outputs = too_large_word(random),
        1 => cell.mask = if random.chance(60) { too_large_word(random) } else { 0 },
        2 => cell.fault_next = bad_next(random, cells),
        3 => cell.channel = random.pick(&[0, 1, 10, 11, 12, 128, 255]),
        4 => cell.level = random.pick(&[1, 1, 2, 3, 128, 255]),
        5 => cell.sequence_next = bad_next(random, cells),
        6 => cell.timeout = random.pick(&[0, 1, 4_000, 4_001, 4_002, 40_000, 65_535]),
        7 => cell.timeout_next = bad_next(random, cells),
        _ => cell.step = random.pick(&[62, 63, 64, 127, 128, 255]),
    }
    write_cell(&cell, &mut table[CELL_BYTES * number..CELL_BYTES * (number + 1)]);
    number
}

/// Gives a cell outputs or a step out of range, and nothing else.
pub fn damage_shown(random: &mut Random, table: &mut [u8], number: usize) {
    let mut cell = cell_at(table, number);
    if random.chance(50) {
        cell.outputs = random.between(1024, 65_535) as u16;
    } else {
        cell.step = random.between(63, 255) as u8;
    }
    write_cell(&cell, &mut table[CELL_BYTES * number..CELL_BYTES * (number + 1)]);
}

/// A cell that an exit leads from to this one; this one where there is none.
pub fn leading_to(table: &[u8], number: usize) -> usize {
    let leads = |&from: &usize| {
        let cell = cell_at(table, from);
        (cell.mask != 0 && usize::from(cell.fault_next) == number)
            || (cell.channel != 0 && usize::from(cell.sequence_next) == number)
            || (cell.timeout != 0 && usize::from(cell.timeout_next) == number)
    };
    (0..cell_count(table)).filter(|&from| from != number).find(leads).unwrap_or(number)
}

/// The last cell, the first number beyond the table, and others; where the exit is absent, 1 is out of range too.
fn bad_next(random: &mut Random, cells: usize) -> u8 {
    random.pick(&[cells as u8 - 1, cells as u8, cells as u8, cells as u8 + 1, 1, 63, 255])
}
