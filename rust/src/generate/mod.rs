//! The generators: six families of cases, each with its own seeded source of numbers.

mod calls;
mod detectors;
mod frames;
mod images;
mod random;
mod settings;
mod sheet_ticks;
mod sheets;
mod table_ticks;
mod tables;
mod translations;
mod words;

use crate::cases::Case;
use random::Random;

pub trait Family {
    fn next_case(&mut self) -> Case;
}

pub const FAMILY_NAMES: [&str; 6] =
    ["translation", "reading", "writing", "table ticks", "sheet ticks", "detectors and pins"];

/// Gives every case to the receiver: first the one of kind 13, then the families in turn. A family's number goes with its case.
pub fn generate<E>(
    seed: u64,
    count: u64,
    mut receive: impl FnMut(Option<usize>, &Case) -> Result<(), E>,
) -> Result<(), E> {
    let mut families = families(seed);
    receive(None, &calls::starts_case())?;
    for _ in 0..count {
        for (number, family) in families.iter_mut().enumerate() {
            receive(Some(number), &family.next_case())?;
        }
    }
    Ok(())
}

fn families(seed: u64) -> [Box<dyn Family>; 6] {
    let mut seeds = Random::new(seed);
    let mut random = || Random::new(seeds.number());
    [
        Box::new(translations::Translations { random: random() }),
        Box::new(images::Images { random: random() }),
        Box::new(settings::Writing { random: random() }),
        Box::new(table_ticks::TableTicks::new(random())),
        Box::new(sheet_ticks::SheetTicks::new(random())),
        Box::new(detectors::Detectors::new(random())),
    ]
}

/// A length that is wrong where the right one is wanted: one beside it, none, one, twice, or any up to the most.
fn other_length(random: &mut Random, right: usize, most: usize) -> usize {
    match random.below(7) {
        0 => 0,
        1 => 1,
        2 | 3 => right.saturating_sub(1),
        4 => right + 1,
        5 => 2 * right,
        _ => random.below(most),
    }
}
