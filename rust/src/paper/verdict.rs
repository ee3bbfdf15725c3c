//! "Numbers given back": a number and a place.

/// "accepted", at place 0.
pub const ACCEPTED: u8 = 0;
/// "wrong length of an input, or of the writer's buffer".
pub const WRONG_LENGTH: u8 = 1;
/// "a 'cannot be used' bit is set, or an unlisted byte is not 0".
pub const CANNOT_BE_USED: u8 = 2;
/// "a code that the source's table does not print".
pub const CODE_NOT_PRINTED: u8 = 3;
/// "a field or setting out of its range".
pub const OUT_OF_RANGE: u8 = 4;
/// "a tag used by an earlier step".
pub const REPEATED_TAG: u8 = 5;
/// "a jump to a tag that no step has".
pub const UNKNOWN_TAG: u8 = 6;
/// "more than 63 cells".
pub const TOO_MANY_CELLS: u8 = 7;
/// "a state that the rules cannot reach by range".
pub const UNREACHABLE_STATE: u8 = 8;
/// "an input word out of range".
pub const WORD_OUT_OF_RANGE: u8 = 9;
/// "the lent table buffer is under 12 bytes a cell".
pub const NO_ROOM: u8 = 10;

#[derive(Clone, Copy, Debug, PartialEq, Eq)]
pub struct Verdict {
    pub number: u8,
    pub place: usize,
}

impl Verdict {
    pub fn accepted() -> Verdict {
        Verdict { number: ACCEPTED, place: 0 }
    }

    pub fn refused(number: u8, place: usize) -> Verdict {
        Verdict { number, place }
    }

    /// Refused with this number at this place when the test fails, else accepted.
    pub fn unless(holds: bool, number: u8, place: usize) -> Verdict {
        if holds {
            Verdict::accepted()
        } else {
            Verdict::refused(number, place)
        }
    }

    /// Refused with this number at the lowest place that was found bad, else accepted.
    pub fn lowest(bad: Option<usize>, number: u8) -> Verdict {
        match bad {
            Some(place) => Verdict::refused(number, place),
            None => Verdict::accepted(),
        }
    }

    /// The tests in their order: the later test is made only where the earlier one accepts.
    pub fn and_then(self, later: impl FnOnce() -> Verdict) -> Verdict {
        if self.is_accepted() {
            later()
        } else {
            self
        }
    }

    pub fn is_accepted(self) -> bool {
        self.number == ACCEPTED
    }
}
