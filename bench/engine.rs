//! An engine is the functions that are timed, so that two engines can be called in the same way.

/// What every function of the library answers: `struct strumelka_answer` of the header.
#[repr(C)]
#[derive(Clone, Copy, Debug, PartialEq, Eq)]
pub struct Answer {
    pub number: u32,
    pub first: u32,
    pub second: u32,
}

impl Answer {
    pub const fn new(number: u32, first: u32, second: u32) -> Answer {
        Answer {
            number,
            first,
            second,
        }
    }
}

/// The functions, over slices.
pub struct Engine {
    pub check_net: fn(o: u32, k: u32, words: &[u32], set: u32) -> Answer,
    pub scan: fn(
        o: u32,
        k: u32,
        words: &[u32],
        set: u32,
        start: u32,
        budget: u32,
        marks: &mut [u8],
    ) -> Answer,
    pub question:
        fn(o: u32, k: u32, words: &[u32], set: u32, x: u32, y: u32, marks: &mut [u8]) -> Answer,
    pub questions: fn(
        o: u32,
        k: u32,
        words: &[u32],
        set: u32,
        pairs: &[u16],
        answers: &mut [u8],
        marks: &mut [u8],
    ) -> Answer,
    pub completion:
        fn(o: u32, k: u32, words: &[u32], set: u32, marks: &mut [u8], list: &mut [u32]) -> Answer,
    pub completion_by_rows: fn(
        o: u32,
        k: u32,
        words: &[u32],
        set: u32,
        yes: &mut [u64],
        no: &mut [u64],
        list: &mut [u32],
    ) -> Answer,
    pub clash: fn(o: u32, k: u32, words: &[u32], set: u32, marks: &mut [u8]) -> Answer,
    pub compact: fn(o: u32, k: u32, list: &mut [u32], marks: &mut [u8]) -> Answer,
    pub mend: fn(
        o: u32,
        k: u32,
        words: &[u32],
        kept: &mut [u32],
        dropped: &mut [u32],
        marks: &mut [u8],
    ) -> Answer,
    pub reason: fn(
        o: u32,
        k: u32,
        words: &[u32],
        set: u32,
        x: u32,
        y: u32,
        sign: u32,
        scratch: &mut [u16],
        list: &mut [u16],
    ) -> Answer,
    pub reason_check: fn(
        o: u32,
        k: u32,
        words: &[u32],
        set: u32,
        x: u32,
        y: u32,
        sign: u32,
        list: &[u16],
    ) -> Answer,
}
