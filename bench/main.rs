//! The Rattle archive and the same work in Rust, timed in one process on the same inputs, as ratios.
//!
//! `--table` prints the table that the Rust side makes of the recorder's sheet, in the lines of `examples/translate.c`.
//!
//! There is no `main` of Rust's own, so that the program starts as one in C does.
#![no_main]

#[path = "../rust/src/paper/mod.rs"]
mod paper;

use std::hint::black_box;
use std::time::Instant;

extern "C" {
    fn wrackbasket_translate(sheet: *const u8, sheet_length: usize, table: *mut u8, table_length: usize) -> u32;
    fn wrackbasket_normal(image: *const u8, image_length: usize, buffer: *mut u8, buffer_length: usize) -> u32;
    fn wrackbasket_start(state: *mut u8, state_length: usize) -> u32;
    fn wrackbasket_tick_table(table: *const u8, table_length: usize, state: *mut u8, state_length: usize, word: u16) -> u64;
    fn wrackbasket_detect(image: *const u8, image_length: usize, recording: *const u8, recording_length: usize) -> u64;
}

const SHEET: &[u8] = include_bytes!("../examples/recorder.sheet");
const IMAGE: &[u8] = include_bytes!("../examples/recorder.image");
const TICKS: usize = 200;
const ROUNDS: usize = 15;

/// The answers of the two sides, which must be the same number, and how often the work was done in them.
struct Work<'a> {
    name: &'a str,
    each: u32,
    rattle: Box<dyn Fn() -> u64 + 'a>,
    rust: Box<dyn Fn() -> u64 + 'a>,
}

fn nanoseconds(work: &dyn Fn() -> u64) -> f64 {
    let began = Instant::now();
    black_box(work());
    began.elapsed().as_nanos() as f64
}

/// The fastest of the rounds, the sides taking turns.
fn report(work: &Work) {
    let (ours, theirs) = ((work.rattle)(), (work.rust)());
    assert_eq!(ours, theirs, "{}: the two sides do not answer alike", work.name);
    let (mut rattle, mut rust) = (f64::MAX, f64::MAX);
    for _ in 0..ROUNDS {
        rattle = rattle.min(nanoseconds(&work.rattle));
        rust = rust.min(nanoseconds(&work.rust));
    }
    let each = f64::from(work.each);
    println!("{}: Rattle {:.0} ns, Rust {:.0} ns, ratio {:.2}", work.name, rattle / each, rust / each, rattle / rust);
}

fn repeated(times: u32, once: impl Fn() -> u64) -> u64 {
    (0..times).fold(0, |sum: u64, _| sum.wrapping_mul(31).wrapping_add(once()))
}

fn digest(bytes: &[u8]) -> u64 {
    bytes.iter().fold(0, |sum: u64, &byte| sum.wrapping_mul(31).wrapping_add(u64::from(byte)))
}

fn translation<'a>(name: &'a str, sheet: &'a [u8]) -> Work<'a> {
    let each = 2000;
    Work {
        name,
        each,
        rattle: Box::new(move || {
            repeated(each, || {
                let mut table = [0u8; 756];
                let sheet = black_box(sheet);
                unsafe { wrackbasket_translate(sheet.as_ptr(), sheet.len(), table.as_mut_ptr(), table.len()) };
                digest(&black_box(table)[..64])
            })
        }),
        rust: Box::new(move || {
            repeated(each, || {
                let mut table = [0u8; 756];
                paper::translate(black_box(sheet), &mut table);
                digest(&black_box(table)[..64])
            })
        }),
    }
}

fn normal<'a>() -> Work<'a> {
    let each = 5000;
    Work {
        name: "normal bytes",
        each,
        rattle: Box::new(move || {
            repeated(each, || {
                let mut bytes = [0u8; 80];
                let image = black_box(IMAGE);
                unsafe { wrackbasket_normal(image.as_ptr(), image.len(), bytes.as_mut_ptr(), bytes.len()) };
                digest(&black_box(bytes))
            })
        }),
        rust: Box::new(move || {
            repeated(each, || {
                let mut bytes = [0u8; 80];
                paper::write(&paper::read(black_box(IMAGE)).settings, &mut bytes);
                digest(&black_box(bytes))
            })
        }),
    }
}

fn word(tick: u32) -> u16 {
    (tick.wrapping_mul(2654435761) >> 22) as u16
}

fn table_ticks<'a>(table: &'a [u8]) -> Work<'a> {
    let each = 20000;
    Work {
        name: "table tick",
        each,
        rattle: Box::new(move || {
            let (mut state, mut sum) = ([0u8; 8], 0u64);
            unsafe { wrackbasket_start(state.as_mut_ptr(), state.len()) };
            for tick in 0..each {
                let (bytes, length) = (table.as_ptr(), table.len());
                let answer = unsafe { wrackbasket_tick_table(bytes, length, state.as_mut_ptr(), state.len(), word(tick)) };
                sum = sum.wrapping_mul(31).wrapping_add(answer >> 8);
            }
            sum
        }),
        rust: Box::new(move || {
            let (mut state, mut sum) = (paper::engine::start(), 0u64);
            for tick in 0..each {
                let answer = paper::tick_table(black_box(table), state, word(tick));
                state = answer.state;
                sum = sum.wrapping_mul(31).wrapping_add(u64::from(answer.step) | u64::from(answer.outputs) << 8);
            }
            sum
        }),
    }
}

/// Samples that go up and down past the thresholds, and levels that change.
fn recording() -> Vec<u8> {
    let byte = |i: usize| {
        let turn = (i / 11).wrapping_mul(37).wrapping_add(i % 11 * 91) as u8;
        if i % 11 == 10 { turn % 32 } else { turn }
    };
    (0..220 * TICKS).map(byte).collect()
}

fn engine_ticks(recording: &[u8]) -> Work<'_> {
    Work {
        name: "engine tick",
        each: TICKS as u32,
        rattle: Box::new(move || {
            let recording = black_box(recording);
            unsafe { wrackbasket_detect(IMAGE.as_ptr(), IMAGE.len(), recording.as_ptr(), recording.len()) }
        }),
        rust: Box::new(move || {
            let settings = paper::read(black_box(IMAGE)).settings;
            let (mut bank, mut words) = (paper::detectors::start(), (0, 0));
            for frames in black_box(recording).chunks(220) {
                let answer = paper::engine_tick(&settings, &bank, frames);
                bank = answer.bank;
                words = (u64::from(answer.faults), u64::from(answer.warnings));
            }
            words.0 << 16 | words.1 << 32
        }),
    }
}

/// Sixty-three steps, each of which jumps to the last.
fn longest_sheet() -> Vec<u8> {
    (1..=63u8).flat_map(|tag| [tag, 0, tag, 0, 1, 0, 63, 0, 1, 1, 63, 0, 10, 0, 63, 0]).collect()
}

fn print_table(table: &[u8]) {
    for cell in table.chunks(12) {
        println!("{}", cell.iter().map(|byte| format!("{byte:02x}")).collect::<String>());
    }
}

#[no_mangle]
pub extern "C" fn main(arguments: i32, _: *const *const u8) -> i32 {
    let mut table = [0u8; 756];
    let cells = paper::translate(SHEET, &mut table).cells as usize;
    let table = &table[..12 * cells];
    if arguments > 1 {
        print_table(table);
        return 0;
    }
    let (recording, longest) = (recording(), longest_sheet());
    report(&translation("translation, 16 steps into 41 cells", SHEET));
    report(&translation("translation, 63 steps into 63 cells", &longest));
    report(&normal());
    report(&table_ticks(table));
    report(&engine_ticks(&recording));
    0
}
