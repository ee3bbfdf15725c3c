//! Family 5: ticks and shows of sheets, and their verdicts (kinds 8, 10, 12, for C 16 and 18), and the start for C (kind 14).

use super::calls::{sheet_for_c_case, sheet_verdict_case, show_sheet_case, start_for_c_case, tick_sheet_case};
use super::random::Random;
use super::sheets::{damage, damage_length, sheet_bytes, valid_steps};
use super::words::{lent_state, state_beyond, state_within, word_for};
use super::Family;
use crate::cases::Case;
use crate::paper::engine::{start, Waiting};
use crate::paper::sheet::STEP_BYTES;
use crate::paper::{State, Step};

/// A run: the state after a tick is the state before the next.
pub struct SheetTicks {
    pub random: Random,
    pub steps: Vec<Step>,
    pub state: State,
    pub ticks_left: usize,
}

impl SheetTicks {
    pub fn new(random: Random) -> SheetTicks {
        SheetTicks { random, steps: Vec::new(), state: start(), ticks_left: 0 }
    }

    /// A new sheet, its cells not counted, and a state to run from.
    fn begin_run(&mut self) {
        self.steps = valid_steps(&mut self.random);
        self.state = start();
        if self.random.chance(70) {
            let number = self.random.below(self.steps.len());
            self.state = state_within(&mut self.random, number, self.steps[number].timeout);
        }
        self.ticks_left = self.random.between(2, 16);
    }

    fn next_tick(&mut self) -> Case {
        self.ticks_left -= 1;
        let number = usize::from(self.state.number);
        let step = self.steps[number];
        if self.random.chance(12) {
            self.state = state_within(&mut self.random, number, step.timeout);
        }
        let word = word_for(&mut self.random, &Waiting::of_step(&step));
        let (case, ticked) = tick_sheet_case(self.state, word, &sheet_bytes(&self.steps));
        self.state = ticked.state;
        case
    }

    /// A single call beside the run: an edge state, damaged steps, a length.
    fn single(&mut self) -> Case {
        let random = &mut self.random;
        let mut steps = valid_steps(random);
        let number = random.below(steps.len());
        for _ in 0..random.weighted(&[50, 22, 18, 10]) {
            damage(random, &mut steps);
        }
        let timeout = steps[number].timeout;
        let state = if random.chance(45) {
            state_within(random, number, timeout)
        } else {
            state_beyond(random, number, steps.len(), timeout)
        };
        let word = word_for(random, &Waiting::of_step(&steps[number]));
        let mut sheet = sheet_bytes(&steps);
        if random.chance(10) {
            damage_length(random, &mut sheet, STEP_BYTES);
        }
        match random.weighted(&[25, 20, 15, 10, 3, 27]) {
            0 => tick_sheet_case(state, word, &sheet).0,
            1 => show_sheet_case(state, &sheet),
            2 => sheet_for_c_case(lent_state(random, state), Some(word), &sheet),
            3 => sheet_for_c_case(lent_state(random, state), None, &sheet),
            4 => start_for_c_case(lent_state(random, state)),
            _ => sheet_verdict_case(sheet),
        }
    }
}

impl Family for SheetTicks {
    fn next_case(&mut self) -> Case {
        if self.ticks_left == 0 && self.random.chance(25) {
            self.begin_run();
        }
        if self.ticks_left == 0 || self.random.chance(10) {
            self.single()
        } else {
            self.next_tick()
        }
    }
}
