//! The paper's own examples, computed by this implementation: `generate --selfcheck`.

use crate::paper::*;

/// Whether every example has its printed value; each that has not is named on standard error.
pub fn selfcheck() -> bool {
    let checks = [
        ("the listing's example", listing_example()),
        ("over 200, hysteresis 10", over(200, 10, &[200, 201, 191, 190]) == [false, true, true, false]),
        ("over 5, hysteresis 31", over(5, 31, &[6, 1, 0]) == [true, true, false]),
        ("under 250, hysteresis 31", under(250, 31, &[249, 254, 255]) == [true, true, false]),
        ("filter 0", filtered(0, &[0, 255, 0]) == [false, true, false]),
        ("filter 10 µs", filtered(10, &[255, 255, 255, 255]) == [false, false, true, true]),
        ("pulse 10 µs", pulse_example()),
        ("output bytes", output_bytes_example()),
        ("blank image", read(&blank()).verdict.is_accepted()),
        ("timeouts 4000 and 4001", cells(&[4000]) == Ok(1) && cells(&[4001]) == Ok(2)),
        ("63 cells", cells(&[40_000, 40_000, 40_000, 40_000, 40_000, 40_000, 1, 1, 1]) == Ok(63)),
        ("64 cells", cells(&[40_000, 40_000, 40_000, 40_000, 40_000, 40_000, 1, 1, 1, 1]) == Err(7)),
        ("lengths 1008 and 1024", cells(&[0; 63]) == Ok(63) && cells(&[0; 64]) == Err(1)),
        ("words 1023 and 1024", word_example()),
    ];
    for (name, holds) in checks {
        if !holds {
            eprintln!("selfcheck: {name} differs");
        }
    }
    checks.iter().all(|&(_, holds)| holds)
}

fn listing_example() -> bool {
    let sheet = [
        0x0A, 0, 1, 0, 0, 0, 0, 0, 0, 0, 0, 0, 0x88, 0x13, 1, 0, //
        1, 0, 3, 0, 1, 0, 0x0A, 0, 0, 0, 0, 0, 0, 0, 0, 0,
    ];
    let mut table = [0; 756];
    let translation = translate(&sheet, &mut table);
    let cell = |number| cell_at(&table, number);
    let plain = Cell {
        outputs: 1,
        mask: 0,
        fault_next: 0,
        channel: 0,
        level: 0,
        sequence_next: 0,
        timeout: 4000,
        timeout_next: 1,
        step: 0,
    };
    translation == Translation { verdict: Verdict::accepted(), cells: 3 }
        && cell(0) == plain
        && cell(1) == Cell { timeout: 1000, timeout_next: 2, ..plain }
        && cell(2) == Cell { outputs: 3, mask: 1, timeout: 0, timeout_next: 0, step: 1, ..plain }
}

/// The fault bit of VP1 after each of these samples.
fn faults_of_vp1(group: Group, samples: &[u8]) -> Vec<bool> {
    let mut settings = read(&blank()).settings;
    settings.groups[0] = group;
    let mut bank = detectors::start();
    let mut faults = Vec::new();
    for &sample in samples {
        let detected = tick(&settings, &bank, &[sample, 0, 0, 0, 0, 0, 0, 0, 0, 0, 0]);
        bank = detected.bank;
        faults.push(detected.faults & 1 == 1);
    }
    faults
}

fn over(threshold: u8, hysteresis: u8, samples: &[u8]) -> Vec<bool> {
    let blank_group = read(&blank()).settings.groups[0];
    faults_of_vp1(Group { over_threshold: threshold, over_hysteresis: hysteresis, ..blank_group }, samples)
}

fn under(threshold: u8, hysteresis: u8, samples: &[u8]) -> Vec<bool> {
    let blank_group = read(&blank()).settings.groups[0];
    let group =
        Group { under_threshold: threshold, under_hysteresis: hysteresis, fault_type: FaultType::Under, ..blank_group };
    faults_of_vp1(group, samples)
}

fn filtered(delay: u16, samples: &[u8]) -> Vec<bool> {
    let blank_group = read(&blank()).settings.groups[0];
    faults_of_vp1(Group { over_threshold: 100, delay, ..blank_group }, samples)
}

/// "Pulse 10 µs: true on the rise and one tick more."
fn pulse_example() -> bool {
    let mut settings = read(&blank()).settings;
    settings.groups[5].input = InputKind::LogicFault;
    settings.groups[5].logic.edge = true;
    let mut bank = detectors::start();
    let mut faults = Vec::new();
    for level in [0, 1, 1, 1] {
        let detected = tick(&settings, &bank, &[0, 0, 0, 0, 0, 0, 0, 0, 0, 0, level]);
        bank = detected.bank;
        faults.push(detected.faults >> 5 & 1);
    }
    faults == [0, 1, 1, 0]
}

/// "Output byte 0x10 and 0x11 read alike, normal 0x10; 0x1C refused 3; 0x40 refused 3; 0x80 refused 2; 0xC0 refused 2."
fn output_bytes_example() -> bool {
    let with_output = |byte: u8| {
        let mut image = blank();
        image[7] = byte;
        image
    };
    let number = |byte: u8| read(&with_output(byte)).verdict;
    read(&with_output(0x10)).settings == read(&with_output(0x11)).settings
        && normal(&with_output(0x10))[7] == 0x10
        && normal(&with_output(0x11))[7] == 0x10
        && [0x1C, 0x40].iter().all(|&byte| number(byte) == Verdict::refused(3, 7))
        && [0x80, 0xC0].iter().all(|&byte| number(byte) == Verdict::refused(2, 7))
}

/// A sheet of steps with these timeouts, each going back to the first step.
fn waits(timeouts: &[u16]) -> Vec<u8> {
    let mut sheet = Vec::new();
    for (step, &timeout) in timeouts.iter().enumerate() {
        let jump = u16::from(timeout != 0);
        for word in [step as u16 + 1, 0, 0, 0, 0, 0, timeout, jump] {
            sheet.extend_from_slice(&word.to_le_bytes());
        }
    }
    sheet
}

/// The number of cells, or the number of the refusal. "4001 two, the second with 1."
fn cells(timeouts: &[u16]) -> Result<u8, u8> {
    let mut table = [0; 756];
    let translation = translate(&waits(timeouts), &mut table);
    if !translation.verdict.is_accepted() {
        return Err(translation.verdict.number);
    }
    if timeouts == [4001] && cell_at(&table, 1).timeout != 1 {
        return Err(0);
    }
    Ok(translation.cells)
}

/// "Word 1023 is taken, 1024 refused."
fn word_example() -> bool {
    let sheet = waits(&[0]);
    tick_sheet(&sheet, engine::start(), 1023).verdict.is_accepted()
        && tick_sheet(&sheet, engine::start(), 1024).verdict == Verdict::refused(9, 0)
}
