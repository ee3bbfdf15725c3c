//! `generate [SEED] [COUNT]`: seeded cases with the answers that the paper gives, as the stream of docs/CASES.md on standard
//! output. `generate --counts [SEED] [COUNT]` prints what these cases reach; `generate --selfcheck` runs the paper's examples.

mod cases;
mod counts;
mod for_c;
mod generate;
mod paper;
mod selfcheck;

use std::io::{self, BufWriter, Write};
use std::process::ExitCode;

const DEFAULT_SEED: u64 = 1066;
const DEFAULT_COUNT: u64 = 100_000;

fn main() -> ExitCode {
    let mut arguments: Vec<String> = std::env::args().skip(1).collect();
    let mode = match arguments.first() {
        Some(first) if first.starts_with("--") => arguments.remove(0),
        _ => String::new(),
    };
    let number = |index: usize, default: u64| arguments.get(index).map_or(Ok(default), |text| text.parse());
    let (Ok(seed), Ok(count), true) = (number(0, DEFAULT_SEED), number(1, DEFAULT_COUNT), arguments.len() <= 2) else {
        return usage();
    };
    match mode.as_str() {
        "" => write_stream(seed, count),
        "--counts" => print_counts(seed, count),
        "--selfcheck" => ExitCode::from(u8::from(!selfcheck::selfcheck())),
        _ => usage(),
    }
}

fn usage() -> ExitCode {
    eprintln!("usage: generate [--counts] [SEED] [COUNT], or generate --selfcheck");
    ExitCode::from(2)
}

fn write_stream(seed: u64, count: u64) -> ExitCode {
    let mut output = BufWriter::with_capacity(1 << 20, io::stdout().lock());
    let mut cases: u64 = 0;
    let written = generate::generate(seed, count, |_, case| {
        cases += 1;
        case.write(&mut output)
    });
    match written.and_then(|()| output.flush()) {
        Ok(()) => {
            eprintln!("cases {cases}");
            ExitCode::SUCCESS
        }
        Err(error) => {
            eprintln!("generate: {error}");
            ExitCode::FAILURE
        }
    }
}

fn print_counts(seed: u64, count: u64) -> ExitCode {
    let mut counts = counts::Counts::default();
    let counted = generate::generate::<io::Error>(seed, count, |family, case| {
        counts.add(family, case);
        Ok(())
    });
    counts.print();
    ExitCode::from(u8::from(counted.is_err()))
}
