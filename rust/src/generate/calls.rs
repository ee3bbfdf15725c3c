//! One function for each kind of call: the arguments become what is given and lent, the paper's answer what is expected.

use crate::cases::{put_bank, put_settings, put_state, put_word, Case};
use crate::for_c;
use crate::paper::{self, engine, Bank, Detected, Settings, State, Ticked, Verdict};

/// Kind 1. The normal bytes, made byte by byte, must be what is written after reading.
pub fn read_case(image: Vec<u8>, mut lent: Vec<u8>) -> Case {
    let reading = paper::read(&image);
    let settings_verdict = paper::settings_verdict(&reading.settings);
    let mut case = Case::new(1, image, lent.clone());
    let write_verdict = paper::write(&reading.settings, &mut lent);
    if reading.verdict.is_accepted() {
        assert!(settings_verdict.is_accepted(), "what was read can be written");
        if write_verdict.is_accepted() {
            assert_eq!(lent, paper::normal(&case.given), "what is written after reading is normal");
        }
    }
    case.expect_verdict(reading.verdict);
    put_settings(&mut case.expected, &reading.settings);
    case.expect_verdict(settings_verdict);
    case.expect_verdict(write_verdict);
    case.expected.extend_from_slice(&lent);
    case
}

/// Kind 2. Reading what was written must give the settings again.
pub fn write_case(settings: &Settings, mut lent: Vec<u8>) -> Case {
    let mut given = Vec::with_capacity(160);
    put_settings(&mut given, settings);
    let mut case = Case::new(2, given, lent.clone());
    let settings_verdict = paper::settings_verdict(settings);
    let write_verdict = paper::write(settings, &mut lent);
    if write_verdict.is_accepted() {
        let reading = paper::read(&lent);
        assert!(reading.verdict.is_accepted() && reading.settings == *settings, "what was written reads the same");
    }
    case.expect_verdict(settings_verdict);
    case.expect_verdict(write_verdict);
    case.expected.extend_from_slice(&lent);
    case
}

/// Kind 3 for one frame, kind 4 for twenty.
pub fn detector_case(kind: u8, settings: &Settings, bank: &Bank, frames: &[u8]) -> (Case, Detected) {
    let mut given = Vec::with_capacity(260 + frames.len());
    put_settings(&mut given, settings);
    put_bank(&mut given, bank);
    given.extend_from_slice(frames);
    let detected = match kind {
        3 => paper::tick(settings, bank, frames),
        _ => paper::engine_tick(settings, bank, frames),
    };
    let mut case = Case::new(kind, given, Vec::new());
    case.expect_verdict(detected.verdict);
    put_bank(&mut case.expected, &detected.bank);
    put_word(&mut case.expected, detected.faults);
    put_word(&mut case.expected, detected.warnings);
    (case, detected)
}

/// Kind 5.
pub fn pins_case(settings: &Settings, outputs: u16) -> Case {
    let mut given = Vec::with_capacity(162);
    put_settings(&mut given, settings);
    put_word(&mut given, outputs);
    let answer = paper::pins(settings, outputs);
    let mut case = Case::new(5, given, Vec::new());
    case.expect_verdict(answer.verdict);
    put_word(&mut case.expected, answer.pins);
    case
}

/// Kind 6. A translated table must pass the table's own tests.
pub fn translate_case(sheet: Vec<u8>, mut lent: Vec<u8>) -> Case {
    let mut case = Case::new(6, sheet, lent.clone());
    let translation = paper::translate(&case.given, &mut lent);
    if translation.verdict.is_accepted() {
        let table = &lent[..paper::table::CELL_BYTES * usize::from(translation.cells)];
        assert!(paper::table_verdict(table).is_accepted(), "a translated table is a table");
    }
    case.expect_verdict(translation.verdict);
    case.expected.push(translation.cells);
    case.expected.extend_from_slice(&lent);
    case
}

/// The answer of kinds 7 to 10: "verdict, state, outputs (2), step (1)".
fn engine_case(kind: u8, given: Vec<u8>, ticked: &Ticked) -> Case {
    let mut case = Case::new(kind, given, Vec::new());
    case.expect_verdict(ticked.verdict);
    put_state(&mut case.expected, ticked.state);
    put_word(&mut case.expected, ticked.outputs);
    case.expected.push(ticked.step);
    case
}

/// What is given in kinds 7 to 10: "state, word (2), table", without the word where none is given.
fn engine_arguments(state: State, word: Option<u16>, bytes: &[u8]) -> Vec<u8> {
    let mut given = Vec::with_capacity(10 + bytes.len());
    put_state(&mut given, state);
    if let Some(word) = word {
        put_word(&mut given, word);
    }
    given.extend_from_slice(bytes);
    given
}

/// Kind 7.
pub fn tick_table_case(state: State, word: u16, table: &[u8]) -> (Case, Ticked) {
    let ticked = paper::tick_table(table, state, word);
    let mut case = engine_case(7, engine_arguments(state, Some(word), table), &ticked);
    if ticked.verdict.is_accepted() {
        let waiting = engine::Waiting::of_cell(&paper::cell_at(table, usize::from(state.number)));
        case.exit = Some(engine::which_exit(&waiting, state.elapsed, word));
    }
    (case, ticked)
}

/// Kind 8.
pub fn tick_sheet_case(state: State, word: u16, sheet: &[u8]) -> (Case, Ticked) {
    let ticked = paper::tick_sheet(sheet, state, word);
    let mut case = engine_case(8, engine_arguments(state, Some(word), sheet), &ticked);
    if ticked.verdict.is_accepted() {
        let waiting = engine::Waiting::of_step(&paper::step_at(sheet, usize::from(state.number)));
        case.exit = Some(engine::which_exit(&waiting, state.elapsed, word));
    }
    (case, ticked)
}

/// Kind 9.
pub fn show_table_case(state: State, table: &[u8]) -> Case {
    engine_case(9, engine_arguments(state, None, table), &paper::show_table(table, state))
}

/// Kind 10.
pub fn show_sheet_case(state: State, sheet: &[u8]) -> Case {
    engine_case(10, engine_arguments(state, None, sheet), &paper::show_sheet(sheet, state))
}

/// What is given in kinds 15 to 18: "word (2), table", without the word where none is given; the state is lent.
fn for_c_case(kind: u8, mut state: Vec<u8>, word: Option<u16>, bytes: &[u8], call: impl Fn(State) -> Ticked) -> Case {
    let mut given = Vec::with_capacity(2 + bytes.len());
    if let Some(word) = word {
        put_word(&mut given, word);
    }
    given.extend_from_slice(bytes);
    let mut case = Case::new(kind, given, state.clone());
    let (answer, verdict) = for_c::on_state(&mut state, call);
    case.verdicts.push(verdict);
    case.expected.extend_from_slice(&answer.to_le_bytes());
    case.expected.extend_from_slice(&state);
    case
}

/// Kinds 15 and 17: with a word a tick, without one a show.
pub fn table_for_c_case(state: Vec<u8>, word: Option<u16>, table: &[u8]) -> Case {
    match word {
        Some(word) => for_c_case(15, state, Some(word), table, |state| paper::tick_table(table, state, word)),
        None => for_c_case(17, state, None, table, |state| paper::show_table(table, state)),
    }
}

/// Kinds 16 and 18: with a word a tick, without one a show.
pub fn sheet_for_c_case(state: Vec<u8>, word: Option<u16>, sheet: &[u8]) -> Case {
    match word {
        Some(word) => for_c_case(16, state, Some(word), sheet, |state| paper::tick_sheet(sheet, state, word)),
        None => for_c_case(18, state, None, sheet, |state| paper::show_sheet(sheet, state)),
    }
}

/// Kind 14.
pub fn start_for_c_case(mut state: Vec<u8>) -> Case {
    let mut case = Case::new(14, Vec::new(), state.clone());
    let (answer, verdict) = for_c::start(&mut state);
    case.verdicts.push(verdict);
    case.expected.extend_from_slice(&answer.to_le_bytes());
    case.expected.extend_from_slice(&state);
    case
}

/// Kind 11.
pub fn table_verdict_case(cell: u8, table: &[u8]) -> Case {
    let mut given = vec![cell];
    given.extend_from_slice(table);
    verdicts_case(11, given, &[paper::table_verdict(table), paper::cell_verdict(table, cell)])
}

/// Kind 12.
pub fn sheet_verdict_case(sheet: Vec<u8>) -> Case {
    let verdict = paper::sheet_verdict(&sheet);
    verdicts_case(12, sheet, &[verdict])
}

fn verdicts_case(kind: u8, given: Vec<u8>, verdicts: &[Verdict]) -> Case {
    let mut case = Case::new(kind, given, Vec::new());
    for &verdict in verdicts {
        case.expect_verdict(verdict);
    }
    case
}

/// Kind 13.
pub fn starts_case() -> Case {
    let mut case = Case::new(13, Vec::new(), Vec::new());
    case.expected.extend_from_slice(&paper::blank());
    put_bank(&mut case.expected, &paper::detectors::start());
    put_state(&mut case.expected, engine::start());
    case
}
