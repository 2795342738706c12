//! The rounds of the marker machine by two plans: the best one that is known, written for speed, and the plan of the engine's first
//! version, so that the gain is seen.

use crate::nets::{head_of, is_chosen, tail_of, NODE_LIMIT, ORIGINS};

pub const T: u8 = 1;
pub const F: u8 = 2;
pub const U: u8 = 4;

pub trait Plan {
    /// Whether a completion counts its words before it writes them, even where the list has room for any result.
    const COUNTS: bool;

    /// Rounds over the chosen links until one sets nothing or the budget is spent: whether they ended, and how many were run.
    fn run(words: &[u32], set: u32, budget: u32, marks: &mut [u8]) -> (bool, u32);
}

/// One pass over the words for the three commands along "is" and one for the two along "is not". The second is run in the first round and where a U has come
/// in the round, and only where a word says "is not". Words along which no lane is open are passed over before it is asked whether they are chosen, as long as few
/// others are found in vain; where words of a sign are rare, blocks without one are. For the passes the marks are
/// written in lanes: see `code_is`. They are held in an array of all nodes that there can be, so that no index is tested.
pub struct Best;

/// All five commands in each round, and a copy of the marks for each command.
pub struct Base;

/// The marks of all nodes that there can be.
type Marks = [u8; NODE_LIMIT];

/// The signs of the two passes.
const IS: u32 = 0;
const ISNT: u32 = 1;

/// All three lanes of a pass, those whose mark is put at the tail of a link, and the one whose mark is put at its head.
const LANES: u8 = 7;
const AT_TAIL: u8 = 3;
const AT_HEAD: u8 = 4;

/// U has come, in the result of `fold_is`.
const U_CAME: u8 = 64;

/// How many words are looked at together.
const BLOCK: usize = 8;

/// How many words sooner a search ends for each word that was found in vain.
const IN_VAIN: usize = 64;

/// How many words there are to each block that is looked at when it is asked whether words of a sign are rare.
const SPREAD: usize = 512;

impl Plan for Best {
    const COUNTS: bool = false;

    fn run(words: &[u32], set: u32, budget: u32, lent: &mut [u8]) -> (bool, u32) {
        let nodes = lent.len();
        let mut held = [0; NODE_LIMIT];
        let isnts = has_isnt(words);
        let (few_is, few_isnt) = (is_rare::<IS>(words), is_rare::<ISNT>(words));
        let (is_table, isnt_table) = (table_of(IS, set), table_of(ISNT, set));
        code_is(lent, &mut held[..nodes]);
        let (mut done, mut count) = (false, 0);
        while count < budget && !done {
            run_pass::<IS>(few_is, &is_table, words, &mut held);
            let mut came = fold_is(&mut held[..nodes]);
            if isnts && (count == 0 || came & U_CAME != 0) {
                code_isnt(&mut held[..nodes]);
                run_pass::<ISNT>(few_isnt, &isnt_table, words, &mut held);
                came |= fold_isnt(&mut held[..nodes]);
            }
            done = came == 0;
            count += 1;
        }
        plain_marks(&held[..nodes], lent);
        (done, count)
    }
}

/// The lanes that a word may open, by its origin and sign: none where it has the other sign or is not chosen.
fn table_of(sign: u32, set: u32) -> [u8; 2 * ORIGINS] {
    std::array::from_fn(|class| {
        let is_followed = class as u32 / 4 == sign && set >> (class % 4) & 1 != 0;
        is_followed as u8 * LANES
    })
}

/// The origin of a word, and 4 more where it says "is not": one multiplication puts both at the top of the word.
#[inline(always)]
fn class_of(word: u32) -> usize {
    (word.wrapping_mul(0x8000_0100) >> 29) as usize
}

/// A pass over the chosen links of the sign. Where `few` words have it, a block is looked at before its words are followed. Where many have, the words to follow
/// are sought, as long as few are found in vain.
#[inline(never)]
fn run_pass<const SIGN: u32>(
    few: bool,
    table: &[u8; 2 * ORIGINS],
    words: &[u32],
    marks: &mut Marks,
) {
    let from = match few {
        true => 0,
        false => follow_open(table, words, marks),
    };
    let mut blocks = words[from..].chunks_exact(BLOCK);
    if few {
        for block in &mut blocks {
            if has_sign::<SIGN>(block) {
                follow_block(table, block, marks);
            }
        }
    } else {
        for block in &mut blocks {
            follow_block(table, block, marks);
        }
    }
    for &word in blocks.remainder() {
        follow(table, word, marks);
    }
}

/// The words along which a lane is open, sought out and followed in turn: the others are passed over before their class is looked at. For a word that was found
/// in vain, because its class opens no lane, the search ends sooner. Where the search has ended: each word before it was followed or puts no mark.
#[inline(always)]
fn follow_open(table: &[u8; 2 * ORIGINS], words: &[u32], marks: &mut Marks) -> usize {
    let mut end = words.len().saturating_sub(BLOCK - 1);
    let mut at = 0;
    while at < end {
        at = seek(words, at, end, marks);
        if at >= end {
            break;
        }
        let word = words[at];
        at += 1;
        if !follow(table, word, marks) {
            end = end.saturating_sub(IN_VAIN);
        }
    }
    at
}

/// The first word from `at` on that has a lane open for some class, or where the blocks end that begin before `end`.
#[inline(always)]
fn seek(words: &[u32], at: usize, end: usize, marks: &Marks) -> usize {
    let mut sought = at;
    for (nth, block) in words[at..end + BLOCK - 1].chunks_exact(BLOCK).enumerate() {
        for (closed, &word) in block.iter().enumerate() {
            if marks[tail_of(word)] >> 4 & marks[head_of(word)] != 0 {
                return at + nth * BLOCK + closed;
            }
        }
        sought = at + (nth + 1) * BLOCK;
    }
    sought
}

/// The words of a block in turn.
#[inline(always)]
fn follow_block(table: &[u8; 2 * ORIGINS], block: &[u32], marks: &mut Marks) {
    for &word in block {
        follow(table, word, marks);
    }
}

/// Whether a word of the block has the sign, by the lowest bits of all of them at once.
#[inline(always)]
fn has_sign<const SIGN: u32>(block: &[u32]) -> bool {
    match SIGN {
        IS => block.iter().fold(!0, |all, word| all & word) % 2 == 0,
        _ => block.iter().fold(0, |any, word| any | word) % 2 != 0,
    }
}

/// Whether a word says "is not".
fn has_isnt(words: &[u32]) -> bool {
    let mut blocks = words.chunks_exact(BLOCK);
    blocks.any(has_sign::<ISNT>) || blocks.remainder().iter().any(|word| word % 2 == ISNT)
}

/// Whether more than one block in two has no word of the sign, of at most 64 blocks spread over all words.
fn is_rare<const SIGN: u32>(words: &[u32]) -> bool {
    let (mut looked, mut without) = (0, 0);
    let blocks = words.chunks_exact(BLOCK).step_by(words.len() / SPREAD + 1);
    for block in blocks {
        looked += 1;
        without += !has_sign::<SIGN>(block) as usize;
    }
    looked / 2 < without
}

/// One word, and whether it put a mark. A lane is open where its bit stands in the upper half at the tail and in the lower half at the head, if the word is chosen and
/// has the sign; its mark is put by striking one of the two out. What tests for a mark stays as it was when the pass began.
#[inline(always)]
fn follow(table: &[u8; 2 * ORIGINS], word: u32, marks: &mut Marks) -> bool {
    let (tail, head) = (tail_of(word), head_of(word));
    let open = marks[tail] >> 4 & marks[head] & table[class_of(word)];
    if open == 0 {
        return false;
    }
    marks[tail] ^= (open & AT_TAIL) << 4;
    marks[head] ^= open & AT_HEAD;
    true
}

/// Marks written for the pass over "is": lane 0 hands T down, lane 1 hands F down, lane 2 hands U up. From bit 0 on: T, F, no U; from bit 4 on: no T, no F, U.
fn code_is(marks: &[u8], codes: &mut [u8]) {
    for (code, byte) in codes.iter_mut().zip(marks) {
        let low = byte ^ U;
        *code = low | (low ^ LANES) << 4;
    }
}

/// The marks that the pass over "is" put are folded in: T and F are missing where bits 4 and 5 say so, U where bit 2 does. The bits in which a byte changed:
/// none if no mark was put, and bit 6 if a U was.
#[inline(never)]
fn fold_is(codes: &mut [u8]) -> u8 {
    let mut came = 0;
    for code in codes {
        let byte = *code;
        *code = byte & 0x34 | (byte >> 4 & 0x03 | (byte & 0x04) << 4) ^ 0x43;
        came |= *code ^ byte;
    }
    came
}

/// Bytes of the pass over "is" written for that over "is not": where U stands at a head, lane 0 puts F at the tail; where it stands at a tail, lane 2 puts F at
/// the head. From bit 0 on: U, F as it was, no F, T; bit 4: no F; bit 6: U.
#[inline(never)]
fn code_isnt(codes: &mut [u8]) {
    for code in codes {
        let byte = *code;
        *code = byte & 0x42
            | byte >> 6 & 0x01
            | byte >> 3 & 0x04
            | byte >> 1 & 0x10
            | (byte & 0x01) << 3;
    }
}

/// The marks that the pass over "is not" put are folded in, and the bytes written for the pass over "is": F is missing where bits 2 and 4 both say so. The bit
/// of F where it has come, or nothing.
#[inline(never)]
fn fold_isnt(codes: &mut [u8]) -> u8 {
    let mut came = 0;
    for code in codes {
        let byte = *code;
        let no_f = byte >> 2 & byte >> 4 & 0x01;
        let low = byte >> 3 & 0x01 | (no_f ^ 0x01) << 1 | (byte & 0x01 ^ 0x01) << 2;
        *code = low | (low ^ LANES) << 4;
        came |= *code & !byte & F;
    }
    came
}

/// The marks of bytes of the pass over "is".
fn plain_marks(codes: &[u8], marks: &mut [u8]) {
    for (byte, code) in marks.iter_mut().zip(codes) {
        *byte = code & (T | F) | code >> 4 & U;
    }
}

/// The end of a link that is tested, and the other.
fn ends<const UP: bool>(word: u32) -> (usize, usize) {
    match UP {
        true => (head_of(word), tail_of(word)),
        false => (tail_of(word), head_of(word)),
    }
}

impl Plan for Base {
    const COUNTS: bool = true;

    fn run(words: &[u32], set: u32, budget: u32, marks: &mut [u8]) -> (bool, u32) {
        for count in 1..=budget {
            let changed = command::<0, true, T, T>(words, set, marks)
                | command::<0, false, U, U>(words, set, marks)
                | command::<0, true, F, F>(words, set, marks)
                | command::<1, false, U, F>(words, set, marks)
                | command::<1, true, U, F>(words, set, marks);
            if !changed {
                return (true, count);
            }
        }
        (false, budget)
    }
}

/// One command: each chosen link of the sign with TEST at the tail, or with UP at the head, puts PUT at its other end.
/// The marks tested are those at the command's beginning. Whether a mark was set.
fn command<const SIGN: u32, const UP: bool, const TEST: u8, const PUT: u8>(
    words: &[u32],
    set: u32,
    marks: &mut [u8],
) -> bool {
    let mut old = [0; NODE_LIMIT];
    old[..marks.len()].copy_from_slice(marks);
    let mut changed = false;
    for &word in words {
        if word % 2 != SIGN || !is_chosen(set, word) {
            continue;
        }
        let (near, far) = ends::<UP>(word);
        if old[near] & TEST != 0 && marks[far] & PUT == 0 {
            marks[far] |= PUT;
            changed = true;
        }
    }
    changed
}
