//! The table: "1 to 63 cells of 12 bytes", and its tests.

use super::numbers::{put_word, word_at, WORD_LIMIT};
use super::sheet::MOST_CHANNEL;
use super::verdict::{Verdict, OUT_OF_RANGE, UNREACHABLE_STATE, WRONG_LENGTH};

pub const CELL_BYTES: usize = 12;
pub const MOST_CELLS: usize = 63;
/// "timeout at most 4000".
pub const MOST_CELL_TIMEOUT: u16 = 4000;
/// "Step at most 62".
pub const MOST_STEP: u8 = 62;

/// "outputs (2), mask (2), fault next (1), channel (1), level (1), sequence next (1), timeout (2), timeout next (1), step (1)".
#[derive(Clone, Copy, Debug, PartialEq, Eq)]
pub struct Cell {
    pub outputs: u16,
    pub mask: u16,
    pub fault_next: u8,
    pub channel: u8,
    pub level: u8,
    pub sequence_next: u8,
    pub timeout: u16,
    pub timeout_next: u8,
    pub step: u8,
}

pub fn cell_count(table: &[u8]) -> usize {
    table.len() / CELL_BYTES
}

pub fn cell_at(table: &[u8], cell: usize) -> Cell {
    let record = &table[CELL_BYTES * cell..CELL_BYTES * (cell + 1)];
    Cell {
        outputs: word_at(record, 0),
        mask: word_at(record, 2),
        fault_next: record[4],
        channel: record[5],
        level: record[6],
        sequence_next: record[7],
        timeout: word_at(record, 8),
        timeout_next: record[10],
        step: record[11],
    }
}

pub fn write_cell(cell: &Cell, record: &mut [u8]) {
    put_word(record, 0, cell.outputs);
    put_word(record, 2, cell.mask);
    record[4] = cell.fault_next;
    record[5] = cell.channel;
    record[6] = cell.level;
    record[7] = cell.sequence_next;
    put_word(record, 8, cell.timeout);
    record[10] = cell.timeout_next;
    record[11] = cell.step;
}

fn length_verdict(table: &[u8]) -> Verdict {
    let whole = table.len() % CELL_BYTES == 0 && (1..=MOST_CELLS).contains(&cell_count(table));
    Verdict::unless(whole, WRONG_LENGTH, 0)
}

/// The length, then the fields of every cell, the lowest first.
pub fn table_verdict(table: &[u8]) -> Verdict {
    let bad = |&cell: &usize| !fields_hold(&cell_at(table, cell), cell_count(table));
    length_verdict(table).and_then(|| Verdict::lowest((0..cell_count(table)).find(bad), OUT_OF_RANGE))
}

/// "On a table the engine tests length, cell number (8), that cell (4)".
pub fn cell_verdict(table: &[u8], cell: u8) -> Verdict {
    let cell = usize::from(cell);
    length_verdict(table)
        .and_then(|| Verdict::unless(cell < cell_count(table), UNREACHABLE_STATE, 0))
        .and_then(|| Verdict::unless(fields_hold(&cell_at(table, cell), cell_count(table)), OUT_OF_RANGE, cell))
}

fn fields_hold(cell: &Cell, cells: usize) -> bool {
    // "Step at most 62, timeout at most 4000 ... the rest as in a sheet."
    let ranges = cell.outputs < WORD_LIMIT
        && cell.mask < WORD_LIMIT
        && cell.channel <= MOST_CHANNEL
        && cell.level <= 1
        && cell.timeout <= MOST_CELL_TIMEOUT
        && cell.step <= MOST_STEP;
    // "next below the number of cells, and 0 where the exit is absent"
    let leads = |next: u8, absent: bool| usize::from(next) < cells && (next == 0 || !absent);
    let exits = leads(cell.fault_next, cell.mask == 0)
        && leads(cell.sequence_next, cell.channel == 0)
        && leads(cell.timeout_next, cell.timeout == 0);
    // "with channel 0 the level is 0"
    ranges && exits && (cell.channel != 0 || cell.level == 0)
}
