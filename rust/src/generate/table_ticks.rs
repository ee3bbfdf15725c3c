//! Family 4: ticks and shows of tables, and their verdicts (kinds 7, 9, 11, for C 15 and 17).

use super::calls::{show_table_case, table_for_c_case, table_verdict_case, tick_table_case};
use super::random::Random;
use super::sheets::damage_length;
use super::tables::{damage, damage_shown, leading_to, valid_table};
use super::words::{lent_state, state_beyond, state_within, word_for};
use super::Family;
use crate::cases::Case;
use crate::paper::engine::{start, Waiting};
use crate::paper::table::{cell_count, CELL_BYTES};
use crate::paper::{cell_at, State};

/// A run: the state after a tick is the state before the next.
pub struct TableTicks {
    pub random: Random,
    pub table: Vec<u8>,
    pub state: State,
    pub ticks_left: usize,
}

impl TableTicks {
    pub fn new(random: Random) -> TableTicks {
        TableTicks { random, table: Vec::new(), state: start(), ticks_left: 0 }
    }

    /// A new table, damaged at times, and a state to run from: the start, any within range, or in a damaged cell.
    fn begin_run(&mut self) {
        let random = &mut self.random;
        self.table = valid_table(random);
        let mut number = random.below(cell_count(&self.table));
        if random.chance(35) {
            for _ in 0..random.between(1, 3) {
                let damaged = damage(random, &mut self.table);
                number = beside_damage(random, &self.table, damaged, number);
            }
        }
        self.state = if random.chance(30) { start() } else { self.any_state_within(number) };
        self.ticks_left = self.random.between(2, 16);
    }

    fn any_state_within(&mut self, number: usize) -> State {
        let timeout = cell_at(&self.table, number).timeout;
        state_within(&mut self.random, number, timeout)
    }

    fn waiting(&self) -> Waiting {
        let number = usize::from(self.state.number).min(cell_count(&self.table) - 1);
        Waiting::of_cell(&cell_at(&self.table, number))
    }

    fn next_tick(&mut self) -> Case {
        self.ticks_left -= 1;
        if self.random.chance(12) {
            let number = usize::from(self.state.number);
            self.state = self.any_state_within(number);
        }
        let waiting = self.waiting();
        let word = word_for(&mut self.random, &waiting);
        let (case, ticked) = tick_table_case(self.state, word, &self.table);
        if ticked.verdict.is_accepted() {
            self.state = ticked.state;
        } else if self.random.chance(50) {
            self.ticks_left = 0;
        }
        case
    }

    /// A tick that may enter a damaged cell, which only the next tick would test.
    fn entering(&mut self) -> Case {
        let random = &mut self.random;
        let mut table = valid_table(random);
        let damaged = random.below(cell_count(&table));
        damage_shown(random, &mut table, damaged);
        let number = leading_to(&table, damaged);
        let cell = cell_at(&table, number);
        let state = state_within(random, number, cell.timeout);
        let mut ticked = tick_table_case(state, word_for(random, &Waiting::of_cell(&cell)), &table);
        for _ in 0..5 {
            if usize::from(ticked.1.state.number) != damaged {
                ticked = tick_table_case(state, word_for(random, &Waiting::of_cell(&cell)), &table);
            }
        }
        ticked.0
    }

    /// A single call beside the run: an edge state, a bad cell, a length.
    fn single(&mut self) -> Case {
        let random = &mut self.random;
        let mut table = valid_table(random);
        let mut number = random.below(cell_count(&table));
        for _ in 0..random.weighted(&[50, 25, 15, 10]) {
            let damaged = damage(random, &mut table);
            number = beside_damage(random, &table, damaged, number);
        }
        let cell = cell_at(&table, number);
        let state = if random.chance(45) {
            state_within(random, number, cell.timeout)
        } else {
            state_beyond(random, number, cell_count(&table), cell.timeout)
        };
        let word = word_for(random, &Waiting::of_cell(&cell));
        if random.chance(10) {
            damage_length(random, &mut table, CELL_BYTES);
        }
        match random.weighted(&[25, 20, 15, 10, 30]) {
            0 => tick_table_case(state, word, &table).0,
            1 => show_table_case(state, &table),
            2 => table_for_c_case(lent_state(random, state), Some(word), &table),
            3 => table_for_c_case(lent_state(random, state), None, &table),
            _ if random.chance(60) => table_verdict_case(number as u8, &table),
            _ => table_verdict_case(state.number, &table),
        }
    }
}

/// The damaged cell, a cell that leads to it, or the number that was chosen before.
fn beside_damage(random: &mut Random, table: &[u8], damaged: usize, number: usize) -> usize {
    match random.below(3) {
        0 => damaged,
        1 => leading_to(table, damaged),
        _ => number,
    }
}

impl Family for TableTicks {
    fn next_case(&mut self) -> Case {
        if self.ticks_left == 0 && self.random.chance(25) {
            self.begin_run();
        }
        if self.random.chance(2) {
            self.entering()
        } else if self.ticks_left == 0 || self.random.chance(10) {
            self.single()
        } else {
            self.next_tick()
        }
    }
}
