//! The plain engine's rows of bits, written for speed: every loop over a row runs over slices of its words, so that none of its
//! steps tests an index, and a row that is read beside one that is written is held in an array of its own.

use crate::nets::row_size;

/// The most words that a row has.
const ROW_LIMIT: usize = 16;

/// A link: its tail, its head and its sign.
type Link = (usize, usize, u32);

/// What a net supports, whatever the rows held: bit y of the row of x is set in `yes` where x is y, and in `no` where x is not y. Both
/// have all rows and nothing behind them.
pub fn fill(
    objects: usize,
    nodes: usize,
    links: impl Iterator<Item = Link>,
    yes: &mut [u64],
    no: &mut [u64],
) {
    fill_rows::<0>(objects, nodes, links, yes, no);
}

/// The same by code that the compiler makes for each size of a row, so that every loop over one is unrolled.
pub fn fill_by_size(
    objects: usize,
    nodes: usize,
    links: impl Iterator<Item = Link>,
    yes: &mut [u64],
    no: &mut [u64],
) {
    macro_rules! by_size {
        ($($size:literal)*) => {
            match row_size(nodes) {
                $($size => fill_rows::<$size>(objects, nodes, links, yes, no),)*
                _ => fill_rows::<0>(objects, nodes, links, yes, no),
            }
        };
    }
    by_size!(1 2 3 4 5 6 7 8 9 10 11 12 13 14 15 16)
}

/// The words of one row: SIZE, or what follows from the nodes where SIZE is 0.
fn size_of<const SIZE: usize>(nodes: usize) -> usize {
    if SIZE == 0 {
        row_size(nodes)
    } else {
        SIZE
    }
}

fn fill_rows<const SIZE: usize>(
    objects: usize,
    nodes: usize,
    links: impl Iterator<Item = Link>,
    yes: &mut [u64],
    no: &mut [u64],
) {
    yes.fill(0);
    no.fill(0);
    if objects == nodes {
        return;
    }
    let size = size_of::<SIZE>(nodes);
    for p in objects..nodes {
        put(&mut yes[p * size..], p);
    }
    for (tail, head, sign) in links {
        if sign == 0 {
            put(&mut yes[tail * size..], head);
            continue;
        }
        put(&mut no[tail * size..], head);
        if tail >= objects {
            put(&mut no[head * size..], tail);
        }
    }
    close::<SIZE>(objects, nodes, yes);
    gather::<SIZE>(nodes, yes, no);
    pass_down::<SIZE>(objects, nodes, yes, no);
}

fn put(row: &mut [u64], y: usize) {
    row[y / 64] |= 1 << (y % 64);
}

fn has(row: &[u64], y: usize) -> bool {
    row[y / 64] >> (y % 64) & 1 != 0
}

fn join(row: &mut [u64], other: &[u64]) {
    for (word, more) in row.iter_mut().zip(other) {
        *word |= more;
    }
}

fn join_two(row: &mut [u64], other: &[u64], third: &[u64]) {
    for ((word, more), most) in row.iter_mut().zip(other).zip(third) {
        *word |= more | most;
    }
}

fn meet(row: &[u64], other: &[u64]) -> bool {
    let both = row.iter().zip(other).fold(0, |sum, (a, b)| sum | a & b);
    both != 0
}

/// Warshall: what is q is whatever q is, for each kind q in turn.
fn close<const SIZE: usize>(objects: usize, nodes: usize, yes: &mut [u64]) {
    let size = size_of::<SIZE>(nodes);
    let mut held = [0; ROW_LIMIT];
    let held = &mut held[..size];
    for q in objects..nodes {
        held.copy_from_slice(&yes[q * size..(q + 1) * size]);
        for row in yes.chunks_exact_mut(size) {
            if has(row, q) {
                join(row, held);
            }
        }
    }
}

/// What x is, is not something: neither is x. Rows are joined two at a time.
fn gather<const SIZE: usize>(nodes: usize, yes: &[u64], no: &mut [u64]) {
    let size = size_of::<SIZE>(nodes);
    let mut held = [0; ROW_LIMIT];
    let held = &mut held[..size];
    for (x, kinds) in yes.chunks_exact(size).enumerate() {
        let place = x * size..(x + 1) * size;
        held.copy_from_slice(&no[place.clone()]);
        let row = |q: usize| &no[q * size..(q + 1) * size];
        for (at, &word) in kinds.iter().enumerate() {
            let mut left = word;
            while left != 0 {
                let q = 64 * at + left.trailing_zeros() as usize;
                let rest = left & (left - 1);
                if rest == 0 {
                    join(held, row(q));
                    break;
                }
                let p = 64 * at + rest.trailing_zeros() as usize;
                join_two(held, row(q), row(p));
                left = rest & (rest - 1);
            }
        }
        no[place].copy_from_slice(held);
    }
}

/// Where x is not something, it is none of the kinds that are.
fn pass_down<const SIZE: usize>(objects: usize, nodes: usize, yes: &[u64], no: &mut [u64]) {
    let size = size_of::<SIZE>(nodes);
    let kinds = &yes[objects * size..];
    for row in no.chunks_exact_mut(size) {
        if row.iter().all(|&word| word == 0) {
            continue;
        }
        for (y, kind) in (objects..).zip(kinds.chunks_exact(size)) {
            if !has(row, y) && meet(kind, row) {
                put(row, y);
            }
        }
    }
}

/// How many statements the rows say.
pub fn count(yes: &[u64], no: &[u64]) -> usize {
    let ones = |rows: &[u64]| {
        rows.iter()
            .map(|word| word.count_ones() as usize)
            .sum::<usize>()
    };
    ones(yes) + ones(no)
}

/// Their words, ascending, into a list of as many places.
pub fn write(nodes: usize, yes: &[u64], no: &[u64], list: &mut [u32]) {
    let size = row_size(nodes).max(1);
    let mut places = list.iter_mut();
    let mut put = |word: usize| {
        if let Some(place) = places.next() {
            *place = word as u32;
        }
    };
    let rows = yes.chunks_exact(size).zip(no.chunks_exact(size));
    for (x, (yes, no)) in rows.enumerate() {
        for (at, (&is, &is_not)) in yes.iter().zip(no).enumerate() {
            let mut left = is | is_not;
            while left != 0 {
                let t = left.trailing_zeros() as usize;
                let word = x * 2048 + (64 * at + t) * 2;
                if is >> t & 1 != 0 {
                    put(word);
                }
                if is_not >> t & 1 != 0 {
                    put(word + 1);
                }
                left &= left - 1;
            }
        }
    }
}
