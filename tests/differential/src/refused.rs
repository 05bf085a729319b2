//! Why a call is turned back.

/// The paper's number, and the drawing of a survey or the record of a code at fault, counted from 0.
#[derive(Clone, Copy, Debug, PartialEq, Eq)]
pub struct Refused {
    pub number: u8,
    pub at: usize,
}

impl Refused {
    pub fn of(number: u8) -> Self {
        Refused { number, at: 0 }
    }
}
