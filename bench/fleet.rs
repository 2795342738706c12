//! `fleet` in plain Rust, with the same plan: file by file, rows of bits, and ones counted. Prints what `fleet` prints.

#[path = "../tests/library/nets.rs"]
#[allow(dead_code)]
mod nets;
#[path = "../tests/library/random.rs"]
#[allow(dead_code)]
mod random;
#[allow(dead_code)]
mod rows;

use std::io::{self, Read, Write};

const FILE_LIMIT: usize = 32_768;
const FILES_LIMIT: usize = 65_536;
const NODE_LIMIT: u64 = 1024;
const PLAIN_WORDS: u32 = 2_097_152;

type Figures = [u64; 8];

fn number_at(bytes: &[u8], at: usize) -> u32 {
    u32::from_le_bytes(bytes[at..at + 4].try_into().unwrap())
}

/// The bodies of a net file, or nothing where it is malformed.
fn bodies(file: &[u8]) -> Option<Vec<&[u8]>> {
    let entries = if file.len() >= 24 && number_at(file, 0) == 32 { 4 } else { 3 };
    if file.len() < 8 * entries || file.len() > FILE_LIMIT {
        return None;
    }
    let mut at = 8 * entries;
    let mut found = Vec::with_capacity(entries);
    for n in 0..entries {
        let size = number_at(file, 8 * n + 4) as usize;
        let right = match n {
            0 => size == 8,
            3 => size == 4,
            _ => size % 4 == 0,
        };
        if number_at(file, 8 * n) as usize != at || !right || size > file.len() - at {
            return None;
        }
        found.push(&file[at..at + size]);
        at += size;
    }
    (at == file.len()).then_some(found)
}

/// Rows that are used for every file.
struct Rows {
    yes: Vec<u64>,
    no: Vec<u64>,
}

/// None, yes, no and both among so many pairs.
fn four(pairs: usize, yes: &[u64], no: &[u64]) -> [u64; 4] {
    let ones = |a: &[u64], b: &[u64]| a.iter().zip(b).map(|(a, b)| u64::from((a & b).count_ones())).sum::<u64>();
    let (some, more, both) = (ones(yes, yes), ones(no, no), ones(yes, no));
    [pairs as u64 - (some + more - both), some - both, more - both, both]
}

/// The figures of a file, or the number of its refusal.
fn figures(file: &[u8], rows: &mut Rows, words: &mut Vec<u32>) -> Result<Figures, u32> {
    let bodies = bodies(file).ok_or(9u32)?;
    let (o, k) = (number_at(bodies[0], 0), number_at(bodies[0], 4));
    if u64::from(o) + u64::from(k) > NODE_LIMIT {
        return Err(1);
    }
    let set = bodies.get(3).map(|set| number_at(set, 0));
    if matches!(set, Some(set) if set > 15) {
        return Err(15);
    }
    let top = if set.is_some() { 3 } else { 0 };
    words.clear();
    words.extend(bodies[1].chunks_exact(4).map(|word| number_at(word, 0)));
    let legal = |word: u32| {
        let plain = word % PLAIN_WORDS;
        word / PLAIN_WORDS <= top && plain / 2048 < o + k && (o..o + k).contains(&(plain / 2 % 1024))
    };
    if !words.iter().all(|&word| legal(word)) {
        return Err(3);
    }
    let set = set.unwrap_or(1);
    let links = words.iter().filter(|&&word| set >> (word / PLAIN_WORDS) & 1 != 0).map(|&word| {
        let plain = word % PLAIN_WORDS;
        ((plain / 2048) as usize, (plain / 2 % 1024) as usize, plain % 2)
    });
    let (o, k) = (o as usize, k as usize);
    let size = nets::row_size(o + k);
    let (yes, no) = (&mut rows.yes[..(o + k) * size], &mut rows.no[..(o + k) * size]);
    rows::fill(o, o + k, links, yes, no);
    let (a, b) = (four(o * k, &yes[..o * size], &no[..o * size]), four(k * k, &yes[o * size..], &no[o * size..]));
    Ok([a[0], a[1], a[2], a[3], b[0], b[1], b[2], b[3]])
}

/// As many bytes as there are, up to the size of the buffer.
fn read_up_to(input: &mut impl Read, buffer: &mut [u8]) -> io::Result<usize> {
    let mut read = 0;
    while read < buffer.len() {
        match input.read(&mut buffer[read..])? {
            0 => break,
            more => read += more,
        }
    }
    Ok(read)
}

fn line(figures: &Figures) -> String {
    figures.map(|figure| figure.to_string()).join(" ")
}

fn main() -> io::Result<()> {
    let mut input = io::stdin().lock();
    let mut output = io::stdout().lock();
    let mut rows = Rows { yes: vec![0; 16_384], no: vec![0; 16_384] };
    let mut words = Vec::with_capacity(FILE_LIMIT / 4);
    let mut file = [0; FILE_LIMIT];
    let mut sums = [0; 8];
    for files in 0.. {
        let mut head = [0; 4];
        let got = read_up_to(&mut input, &mut head)?;
        if got == 0 {
            break;
        }
        let size = u32::from_le_bytes(head) as usize;
        if files == FILES_LIMIT || got < 4 || size > FILE_LIMIT || read_up_to(&mut input, &mut file[..size])? < size {
            writeln!(output, "refused 14")?;
            break;
        }
        match figures(&file[..size], &mut rows, &mut words) {
            Ok(counts) => {
                writeln!(output, "{}", line(&counts))?;
                for (sum, count) in sums.iter_mut().zip(counts) {
                    *sum += count;
                }
            }
            Err(number) => writeln!(output, "refused {number}")?,
        }
    }
    writeln!(output, "total {}", line(&sums))
}
