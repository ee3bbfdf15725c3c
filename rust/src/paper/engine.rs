//! The engine: one tick of a sheet or of a table, and what it shows.

use super::numbers::WORD_LIMIT;
use super::sheet::{find_tag, sheet_verdict, step_at, step_count, Step};
use super::table::{cell_at, cell_verdict, Cell};
use super::verdict::{Verdict, UNREACHABLE_STATE, WORD_OUT_OF_RANGE};

/// Where the engine is, a step of a sheet or a cell of a table, and for how many ticks.
#[derive(Clone, Copy, Debug, PartialEq, Eq)]
pub struct State {
    pub number: u8,
    pub elapsed: u16,
}

/// The state after the tick with the outputs and the step that it shows.
#[derive(Clone, Copy, Debug, PartialEq, Eq)]
pub struct Ticked {
    pub verdict: Verdict,
    pub state: State,
    pub outputs: u16,
    pub step: u8,
}

#[derive(Clone, Copy, Debug, PartialEq, Eq)]
pub enum Exit {
    Stay,
    Fault,
    Sequence,
    Timeout,
}

/// What a step or a cell waits for.
#[derive(Clone, Copy)]
pub struct Waiting {
    pub mask: u16,
    pub channel: u8,
    pub level: u8,
    pub timeout: u16,
}

impl Waiting {
    pub fn of_step(step: &Step) -> Waiting {
        Waiting { mask: step.mask, channel: step.channel, level: step.level, timeout: step.timeout }
    }

    pub fn of_cell(cell: &Cell) -> Waiting {
        Waiting { mask: cell.mask, channel: cell.channel, level: cell.level, timeout: cell.timeout }
    }
}

/// "The start is step 0 or cell 0."
pub fn start() -> State {
    State { number: 0, elapsed: 0 }
}

/// "if w shares a bit with the mask, take the fault exit; else if the channel's bit (channel c reads bit c - 1 of w) equals the
/// level, the sequence exit; else if the timeout is not 0 and elapsed + 1 reaches it, the timeout exit".
pub fn which_exit(waiting: &Waiting, elapsed: u16, word: u16) -> Exit {
    if word & waiting.mask != 0 {
        Exit::Fault
    } else if waiting.channel != 0 && word >> (waiting.channel - 1) & 1 == u16::from(waiting.level) {
        Exit::Sequence
    } else if waiting.timeout != 0 && u32::from(elapsed) + 1 >= u32::from(waiting.timeout) {
        Exit::Timeout
    } else {
        Exit::Stay
    }
}

/// "else elapsed rises by one, or stays 0 without a timeout."
fn stay(state: State, timeout: u16) -> State {
    State { number: state.number, elapsed: if timeout == 0 { 0 } else { state.elapsed + 1 } }
}

/// "Any exit sets elapsed to 0, a jump to itself too."
fn enter(number: u8) -> State {
    State { number, elapsed: 0 }
}

/// "gives back the state it received ... Zero stands in every other field".
fn refused(verdict: Verdict, state: State) -> Ticked {
    Ticked { verdict, state, outputs: 0, step: 0 }
}

/// "elapsed below the larger of 1 and the timeout (8)".
fn elapsed_verdict(elapsed: u16, timeout: u16) -> Verdict {
    Verdict::unless(elapsed < timeout.max(1), UNREACHABLE_STATE, 0)
}

/// "word below 1024 (9)".
fn word_verdict(word: u16) -> Verdict {
    Verdict::unless(word < WORD_LIMIT, WORD_OUT_OF_RANGE, 0)
}

/// "On a table the engine tests length, cell number (8), that cell (4), elapsed below the larger of 1 and the timeout (8)".
fn table_state_verdict(table: &[u8], state: State) -> Verdict {
    cell_verdict(table, state.number)
        .and_then(|| elapsed_verdict(state.elapsed, cell_at(table, usize::from(state.number)).timeout))
}

/// "On a sheet it makes the sheet's tests without cells and room, then step number, elapsed and word alike."
fn sheet_state_verdict(sheet: &[u8], state: State) -> Verdict {
    let number = usize::from(state.number);
    sheet_verdict(sheet)
        .and_then(|| Verdict::unless(number < step_count(sheet), UNREACHABLE_STATE, 0))
        .and_then(|| elapsed_verdict(state.elapsed, step_at(sheet, number).timeout))
}

pub fn tick_table(table: &[u8], state: State, word: u16) -> Ticked {
    let verdict = table_state_verdict(table, state).and_then(|| word_verdict(word));
    if !verdict.is_accepted() {
        return refused(verdict, state);
    }
    let cell = cell_at(table, usize::from(state.number));
    let after = match which_exit(&Waiting::of_cell(&cell), state.elapsed, word) {
        Exit::Stay => stay(state, cell.timeout),
        Exit::Fault => enter(cell.fault_next),
        Exit::Sequence => enter(cell.sequence_next),
        Exit::Timeout => enter(cell.timeout_next),
    };
    shown_cell(table, after)
}

/// The outputs and the step of the cell as they stand: a tick tests the cell that it leaves, not the one that it enters.
fn shown_cell(table: &[u8], state: State) -> Ticked {
    let cell = cell_at(table, usize::from(state.number));
    Ticked { verdict: Verdict::accepted(), state, outputs: cell.outputs, step: cell.step }
}

pub fn tick_sheet(sheet: &[u8], state: State, word: u16) -> Ticked {
    let verdict = sheet_state_verdict(sheet, state).and_then(|| word_verdict(word));
    if !verdict.is_accepted() {
        return refused(verdict, state);
    }
    let step = step_at(sheet, usize::from(state.number));
    let after = match which_exit(&Waiting::of_step(&step), state.elapsed, word) {
        Exit::Stay => stay(state, step.timeout),
        Exit::Fault => enter(step_of_jump(sheet, step.fault_jump)),
        Exit::Sequence => enter(step_of_jump(sheet, step.sequence_jump)),
        Exit::Timeout => enter(step_of_jump(sheet, step.timeout_jump)),
    };
    shown_step(sheet, after)
}

/// "A jump holds a tag". The sheet was tested, so some step has it.
fn step_of_jump(sheet: &[u8], jump: u16) -> u8 {
    find_tag(sheet, jump).unwrap_or(0) as u8
}

fn shown_step(sheet: &[u8], state: State) -> Ticked {
    let step = step_at(sheet, usize::from(state.number));
    Ticked { verdict: Verdict::accepted(), state, outputs: step.outputs, step: state.number }
}

/// What a table shows in this state: the tests of a tick without the word's.
pub fn show_table(table: &[u8], state: State) -> Ticked {
    let verdict = table_state_verdict(table, state);
    if verdict.is_accepted() {
        shown_cell(table, state)
    } else {
        refused(verdict, state)
    }
}

/// What a sheet shows in this state: the tests of a tick without the word's.
pub fn show_sheet(sheet: &[u8], state: State) -> Ticked {
    let verdict = sheet_state_verdict(sheet, state);
    if verdict.is_accepted() {
        shown_step(sheet, state)
    } else {
        refused(verdict, state)
    }
}
