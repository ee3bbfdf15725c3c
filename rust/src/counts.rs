//! What the cases reach, for a reader who wants to know before running them: `generate --counts`.

use crate::cases::Case;
use crate::generate::FAMILY_NAMES;
use crate::paper::Exit;

const NUMBERS: usize = 11;
const KINDS: usize = 19;
const MOST_VERDICTS: usize = 3;

#[derive(Default)]
pub struct Counts {
    cases: u64,
    family_cases: [u64; 6],
    family_accepted: [u64; 6],
    /// By kind of call, by verdict of its answer, by number.
    numbers: [[[u64; NUMBERS]; MOST_VERDICTS]; KINDS],
    /// By kind of call (7 the table, 8 the sheet): stay, fault, sequence, timeout.
    exits: [[u64; 4]; 2],
    cell_counts: [u64; 4],
    fault_words: u64,
    warning_words: u64,
    pulses: u64,
    entered_out_of_range: u64,
}

impl Counts {
    pub fn add(&mut self, family: Option<usize>, case: &Case) {
        self.cases += 1;
        for (index, verdict) in case.verdicts.iter().enumerate() {
            self.numbers[usize::from(case.kind)][index][usize::from(verdict.number)] += 1;
        }
        let accepted = case.verdicts.iter().all(|verdict| verdict.is_accepted());
        if let Some(family) = family {
            self.family_cases[family] += 1;
            self.family_accepted[family] += u64::from(accepted);
        }
        if let Some(exit) = case.exit {
            self.exits[usize::from(case.kind == 8)][exit_index(exit)] += 1;
        }
        if accepted {
            self.add_answer(case);
        }
    }

    /// What stands in the answer of an accepted call.
    fn add_answer(&mut self, case: &Case) {
        let word = |at: usize| u16::from_le_bytes([case.expected[at], case.expected[at + 1]]);
        match case.kind {
            3 | 4 => {
                self.fault_words += u64::from(word(103) != 0);
                self.warning_words += u64::from(word(105) != 0);
                self.pulses += u64::from((5..10).any(|channel| word(3 + 10 * channel + 8) != 0));
            }
            6 => {
                let steps = case.given.len() / 16;
                let cells = usize::from(case.expected[3]);
                self.cell_counts[0] += u64::from(cells == steps);
                self.cell_counts[1] += u64::from(cells > steps);
                self.cell_counts[2] += u64::from(cells == 63);
                self.cell_counts[3] += u64::from(case.lent.len() > 12 * cells);
            }
            7 => self.entered_out_of_range += u64::from(word(11) >= 1024 || case.expected[13] > 62),
            _ => {}
        }
    }

    pub fn print(&self) {
        println!("cases {}", self.cases);
        println!("accepted (every verdict of the answer) by family:");
        for (family, name) in FAMILY_NAMES.iter().enumerate() {
            let (all, accepted) = (self.family_cases[family], self.family_accepted[family]);
            println!("  {name}: {accepted} of {all}, {:.1} %", 100.0 * accepted as f64 / all.max(1) as f64);
        }
        self.print_numbers();
        for (name, exits) in ["table", "sheet"].iter().zip(&self.exits) {
            let [stay, fault, sequence, timeout] = exits;
            println!("exits of the {name}: stay {stay} fault {fault} sequence {sequence} timeout {timeout}");
        }
        println!("table ticks that enter a cell with outputs or step out of range: {}", self.entered_out_of_range);
        let [even, cut, full, longer] = self.cell_counts;
        println!(
            "translations: a cell a step {even}, with cut waits {cut}, of 63 cells {full}, buffer longer {longer}"
        );
        println!(
            "detector ticks: fault word not 0 {}, warning word not 0 {}, a pulse left {}",
            self.fault_words, self.warning_words, self.pulses
        );
    }

    fn print_numbers(&self) {
        println!("numbers 0 to 10 by kind of call and verdict of its answer:");
        let mut all = [0; NUMBERS];
        for (kind, verdicts) in self.numbers.iter().enumerate() {
            for (index, numbers) in verdicts.iter().enumerate() {
                if numbers.iter().sum::<u64>() > 0 {
                    println!("  kind {kind} verdict {}: {numbers:?}", index + 1);
                }
                for (total, number) in all.iter_mut().zip(numbers) {
                    *total += number;
                }
            }
        }
        println!("  all: {all:?}");
    }
}

fn exit_index(exit: Exit) -> usize {
    match exit {
        Exit::Stay => 0,
        Exit::Fault => 1,
        Exit::Sequence => 2,
        Exit::Timeout => 3,
    }
}
