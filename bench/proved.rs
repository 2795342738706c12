//! The proved engine: safe Rust functions over `include/strumelka.h`.
//!
//! Each slice is handed over as its pointer and its length, and a slice meets all that the header asks of a buffer:
//! its pointer is never null and always aligned, and a `&mut` overlaps nothing. So no wrapper has anything to test.

use crate::engine::{Answer, Engine};

mod c {
    use super::Answer;

    extern "C" {
        pub fn strumelka_check_net(
            o: u32,
            k: u32,
            words: *const u32,
            words_len: usize,
            set: u32,
        ) -> Answer;
        pub fn strumelka_scan(
            o: u32,
            k: u32,
            words: *const u32,
            words_len: usize,
            set: u32,
            start: u32,
            budget: u32,
            marks: *mut u8,
            marks_len: usize,
        ) -> Answer;
        pub fn strumelka_question(
            o: u32,
            k: u32,
            words: *const u32,
            words_len: usize,
            set: u32,
            x: u32,
            y: u32,
            marks: *mut u8,
            marks_len: usize,
        ) -> Answer;
        pub fn strumelka_questions(
            o: u32,
            k: u32,
            words: *const u32,
            words_len: usize,
            set: u32,
            pairs: *const u16,
            pairs_len: usize,
            answers: *mut u8,
            answers_len: usize,
            marks: *mut u8,
            marks_len: usize,
        ) -> Answer;
        pub fn strumelka_completion(
            o: u32,
            k: u32,
            words: *const u32,
            words_len: usize,
            set: u32,
            marks: *mut u8,
            marks_len: usize,
            list: *mut u32,
            list_len: usize,
        ) -> Answer;
        pub fn strumelka_completion_by_rows(
            o: u32,
            k: u32,
            words: *const u32,
            words_len: usize,
            set: u32,
            yes: *mut u64,
            yes_len: usize,
            no: *mut u64,
            no_len: usize,
            list: *mut u32,
            list_len: usize,
        ) -> Answer;
        pub fn strumelka_clash(
            o: u32,
            k: u32,
            words: *const u32,
            words_len: usize,
            set: u32,
            marks: *mut u8,
            marks_len: usize,
        ) -> Answer;
        pub fn strumelka_compact(
            o: u32,
            k: u32,
            list: *mut u32,
            list_len: usize,
            marks: *mut u8,
            marks_len: usize,
        ) -> Answer;
        pub fn strumelka_mend(
            o: u32,
            k: u32,
            words: *const u32,
            words_len: usize,
            kept: *mut u32,
            kept_len: usize,
            dropped: *mut u32,
            dropped_len: usize,
            marks: *mut u8,
            marks_len: usize,
        ) -> Answer;
        pub fn strumelka_reason(
            o: u32,
            k: u32,
            words: *const u32,
            words_len: usize,
            set: u32,
            x: u32,
            y: u32,
            sign: u32,
            scratch: *mut u16,
            scratch_len: usize,
            list: *mut u16,
            list_len: usize,
        ) -> Answer;
        pub fn strumelka_reason_check(
            o: u32,
            k: u32,
            words: *const u32,
            words_len: usize,
            set: u32,
            x: u32,
            y: u32,
            sign: u32,
            list: *const u16,
            list_len: usize,
        ) -> Answer;
    }
}

/// The functions of the archive.
pub const ENGINE: Engine = Engine {
    check_net,
    scan,
    question,
    questions,
    completion,
    completion_by_rows,
    clash,
    compact,
    mend,
    reason,
    reason_check,
};

fn check_net(o: u32, k: u32, words: &[u32], set: u32) -> Answer {
    unsafe { c::strumelka_check_net(o, k, words.as_ptr(), words.len(), set) }
}

fn scan(
    o: u32,
    k: u32,
    words: &[u32],
    set: u32,
    start: u32,
    budget: u32,
    marks: &mut [u8],
) -> Answer {
    unsafe {
        c::strumelka_scan(
            o,
            k,
            words.as_ptr(),
            words.len(),
            set,
            start,
            budget,
            marks.as_mut_ptr(),
            marks.len(),
        )
    }
}

fn question(o: u32, k: u32, words: &[u32], set: u32, x: u32, y: u32, marks: &mut [u8]) -> Answer {
    unsafe {
        c::strumelka_question(
            o,
            k,
            words.as_ptr(),
            words.len(),
            set,
            x,
            y,
            marks.as_mut_ptr(),
            marks.len(),
        )
    }
}

fn questions(
    o: u32,
    k: u32,
    words: &[u32],
    set: u32,
    pairs: &[u16],
    answers: &mut [u8],
    marks: &mut [u8],
) -> Answer {
    unsafe {
        c::strumelka_questions(
            o,
            k,
            words.as_ptr(),
            words.len(),
            set,
            pairs.as_ptr(),
            pairs.len(),
            answers.as_mut_ptr(),
            answers.len(),
            marks.as_mut_ptr(),
            marks.len(),
        )
    }
}

fn completion(
    o: u32,
    k: u32,
    words: &[u32],
    set: u32,
    marks: &mut [u8],
    list: &mut [u32],
) -> Answer {
    unsafe {
        c::strumelka_completion(
            o,
            k,
            words.as_ptr(),
            words.len(),
            set,
            marks.as_mut_ptr(),
            marks.len(),
            list.as_mut_ptr(),
            list.len(),
        )
    }
}

fn completion_by_rows(
    o: u32,
    k: u32,
    words: &[u32],
    set: u32,
    yes: &mut [u64],
    no: &mut [u64],
    list: &mut [u32],
) -> Answer {
    unsafe {
        c::strumelka_completion_by_rows(
            o,
            k,
            words.as_ptr(),
            words.len(),
            set,
            yes.as_mut_ptr(),
            yes.len(),
            no.as_mut_ptr(),
            no.len(),
            list.as_mut_ptr(),
            list.len(),
        )
    }
}

fn clash(o: u32, k: u32, words: &[u32], set: u32, marks: &mut [u8]) -> Answer {
    unsafe {
        c::strumelka_clash(
            o,
            k,
            words.as_ptr(),
            words.len(),
            set,
            marks.as_mut_ptr(),
            marks.len(),
        )
    }
}

fn compact(o: u32, k: u32, list: &mut [u32], marks: &mut [u8]) -> Answer {
    unsafe {
        c::strumelka_compact(
            o,
            k,
            list.as_mut_ptr(),
            list.len(),
            marks.as_mut_ptr(),
            marks.len(),
        )
    }
}

fn mend(
    o: u32,
    k: u32,
    words: &[u32],
    kept: &mut [u32],
    dropped: &mut [u32],
    marks: &mut [u8],
) -> Answer {
    unsafe {
        c::strumelka_mend(
            o,
            k,
            words.as_ptr(),
            words.len(),
            kept.as_mut_ptr(),
            kept.len(),
            dropped.as_mut_ptr(),
            dropped.len(),
            marks.as_mut_ptr(),
            marks.len(),
        )
    }
}

#[allow(clippy::too_many_arguments)]
fn reason(
    o: u32,
    k: u32,
    words: &[u32],
    set: u32,
    x: u32,
    y: u32,
    sign: u32,
    scratch: &mut [u16],
    list: &mut [u16],
) -> Answer {
    unsafe {
        c::strumelka_reason(
            o,
            k,
            words.as_ptr(),
            words.len(),
            set,
            x,
            y,
            sign,
            scratch.as_mut_ptr(),
            scratch.len(),
            list.as_mut_ptr(),
            list.len(),
        )
    }
}

#[allow(clippy::too_many_arguments)]
fn reason_check(
    o: u32,
    k: u32,
    words: &[u32],
    set: u32,
    x: u32,
    y: u32,
    sign: u32,
    list: &[u16],
) -> Answer {
    unsafe {
        c::strumelka_reason_check(
            o,
            k,
            words.as_ptr(),
            words.len(),
            set,
            x,
            y,
            sign,
            list.as_ptr(),
            list.len(),
        )
    }
}
