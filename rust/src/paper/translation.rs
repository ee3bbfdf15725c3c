//! The translation of a sheet into a lent table.

use super::sheet::{find_tag, sheet_verdict, step_at, step_count, Step, MOST_STEPS};
use super::table::{write_cell, Cell, CELL_BYTES, MOST_CELLS, MOST_CELL_TIMEOUT};
use super::verdict::{Verdict, NO_ROOM, TOO_MANY_CELLS};

#[derive(Clone, Copy, Debug, PartialEq, Eq)]
pub struct Translation {
    pub verdict: Verdict,
    pub cells: u8,
}

/// The number of the first cell of each step, and after the last step the number of all cells.
type FirstCells = [usize; MOST_STEPS + 1];

/// "Tests: length; fields of every step; repeated tags; unknown tags; cells; room."
pub fn translate(sheet: &[u8], table: &mut [u8]) -> Translation {
    let verdict = sheet_verdict(sheet);
    if !verdict.is_accepted() {
        return Translation { verdict, cells: 0 };
    }
    let first_cells = first_cells(sheet);
    let cells = first_cells[step_count(sheet)];
    let verdict = Verdict::unless(cells <= MOST_CELLS, TOO_MANY_CELLS, 0)
        .and_then(|| Verdict::unless(table.len() >= CELL_BYTES * cells, NO_ROOM, 0));
    if !verdict.is_accepted() {
        return Translation { verdict, cells: 0 };
    }
    for step in 0..step_count(sheet) {
        let part = &mut table[CELL_BYTES * first_cells[step]..CELL_BYTES * first_cells[step + 1]];
        write_step(sheet, step, &first_cells, part);
    }
    Translation { verdict, cells: cells as u8 }
}

/// "a timeout T takes T/4000 cells rounded up, at least one".
pub fn cells_of_timeout(timeout: u16) -> usize {
    usize::from(timeout.div_ceil(MOST_CELL_TIMEOUT)).max(1)
}

/// "steps in order".
fn first_cells(sheet: &[u8]) -> FirstCells {
    let mut first_cells = [0; MOST_STEPS + 1];
    for step in 0..step_count(sheet) {
        first_cells[step + 1] = first_cells[step] + cells_of_timeout(step_at(sheet, step).timeout);
    }
    first_cells
}

/// The cells of one step into its part of the table.
fn write_step(sheet: &[u8], number: usize, first_cells: &FirstCells, part: &mut [u8]) {
    let step = step_at(sheet, number);
    let last = last_cell(sheet, number, &step, first_cells);
    let mut records = part.chunks_exact_mut(CELL_BYTES).enumerate().peekable();
    while let Some((index, record)) = records.next() {
        if records.peek().is_none() {
            write_cell(&last, record);
        } else {
            // "All but the last have 4000 and go to the following cell by timeout"
            let following = (first_cells[number] + index + 1) as u8;
            write_cell(&Cell { timeout: MOST_CELL_TIMEOUT, timeout_next: following, ..last }, record);
        }
    }
}

/// "the last has the rest. Other fields are the step's in each. Jumps lead to a step's first cell."
fn last_cell(sheet: &[u8], number: usize, step: &Step, first_cells: &FirstCells) -> Cell {
    let first_cell_of = |jump: u16| match find_tag(sheet, jump) {
        Some(target) if jump != 0 => first_cells[target] as u8,
        _ => 0,
    };
    let cells_before = first_cells[number + 1] - first_cells[number] - 1;
    Cell {
        outputs: step.outputs,
        mask: step.mask,
        fault_next: first_cell_of(step.fault_jump),
        channel: step.channel,
        level: step.level,
        sequence_next: first_cell_of(step.sequence_jump),
        timeout: step.timeout - MOST_CELL_TIMEOUT * cells_before as u16,
        timeout_next: first_cell_of(step.timeout_jump),
        step: number as u8,
    }
}
