//! The calls for C on an engine's state, as include/wrackbasket.h explains them: the state is eight lent bytes, the answer one
//! number.

use crate::paper::{engine, State, Ticked, Verdict};

const STATE_BYTES: usize = 8;

/// "number of the step or cell (1), held (1), elapsed (2), ticks (2), two zero bytes".
pub fn state_bytes(state: State) -> [u8; STATE_BYTES] {
    let [low, high] = state.elapsed.to_le_bytes();
    [state.number, 0, low, high, 0, 0, 0, 0]
}

/// "another length is 1 at 0, a byte that must be 0 and is not is 8 at 0".
fn bytes_verdict(bytes: &[u8]) -> Verdict {
    if bytes.len() != STATE_BYTES {
        return Verdict { number: 1, place: 0 };
    }
    if [1, 4, 5, 6, 7].iter().any(|&at| bytes[at] != 0) {
        return Verdict { number: 8, place: 0 };
    }
    Verdict { number: 0, place: 0 }
}

/// "number (7:0), step that shows (15:8), outputs (31:16), place (62:32), 0 (63)".
fn packed(ticked: &Ticked) -> u64 {
    let number = u64::from(ticked.verdict.number);
    let place = ticked.verdict.place as u64 & 0x7FFF_FFFF;
    number | u64::from(ticked.step) << 8 | u64::from(ticked.outputs) << 16 | place << 32
}

/// The bytes are tested before the call's own tests; a refusal leaves them. A show changes no state, so it leaves them too.
pub fn on_state(bytes: &mut [u8], call: impl Fn(State) -> Ticked) -> (u64, Verdict) {
    let verdict = bytes_verdict(bytes);
    if !verdict.is_accepted() {
        let state = State { number: 0, elapsed: 0 };
        return (packed(&Ticked { verdict, state, outputs: 0, step: 0 }), verdict);
    }
    let ticked = call(State { number: bytes[0], elapsed: u16::from_le_bytes([bytes[2], bytes[3]]) });
    if ticked.verdict.is_accepted() {
        bytes.copy_from_slice(&state_bytes(ticked.state));
    }
    (packed(&ticked), ticked.verdict)
}

/// The start's bytes, whatever stood there. Answer: "bits 7:0 NUMBER, 15:8 zero, 31:16 PLACE".
pub fn start(bytes: &mut [u8]) -> (u32, Verdict) {
    if bytes.len() != STATE_BYTES {
        return (1, Verdict { number: 1, place: 0 });
    }
    bytes.copy_from_slice(&state_bytes(engine::start()));
    (0, Verdict { number: 0, place: 0 })
}
