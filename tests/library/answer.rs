//! What every operation answers.

/// The number of the table and its values.
#[derive(Clone, Copy, Debug, PartialEq, Eq)]
pub struct Answer {
    pub number: u32,
    pub first: u32,
    pub second: u32,
}

impl Answer {
    pub const fn new(number: u32, first: u32, second: u32) -> Answer {
        Answer {
            number,
            first,
            second,
        }
    }
}
