//! Draws random cases for `readings`, and holds the archive to what `readings` prints for cases.
//!
//! `library draw SEED CASES` prints that many cases, the seed first. `library replay CASES PRINTED` runs the cases of a file on the
//! archive and compares with what was printed for them. Where the file says that it has enough drawn cases, the calls at the limits
//! are made too, and it is an error if some outcome in the table of operations was never met.

mod answer;
mod call;
mod case;
mod derivations;
mod draw;
mod fields;
mod limits;
mod lines;
mod markers;
mod nets;
mod operations;
mod paths;
mod programs;
mod proofs;
mod random;
mod replay;
mod rules;
mod sequents;
mod tally;

use std::io::{self, BufWriter, Write};
use std::process::exit;

use nets::Net;
use operations::{Effort, Operation};
use random::Random;
use tally::Tally;

/// From so many drawn cases on every outcome has to be met.
const LONG_RUN: u64 = 10_000;
const CASES_ON_A_NET: usize = 5;

fn main() {
    let words: Vec<String> = std::env::args().skip(1).collect();
    let words: Vec<&str> = words.iter().map(String::as_str).collect();
    let done = match words[..] {
        ["draw", seed, cases] => draw_cases(number(seed), number(cases)),
        ["replay", cases, printed] => replay_file(cases, printed),
        _ => usage(),
    };
    if let Err(text) = done {
        println!("FAILED: {}", text);
        exit(1);
    }
}

fn usage() -> ! {
    eprintln!("usage: library draw SEED CASES | library replay CASES PRINTED");
    exit(2)
}

fn number(text: &str) -> u64 {
    text.parse().unwrap_or_else(|_| usage())
}

fn draw_cases(seed: u64, cases: u64) -> Result<(), String> {
    let operations = operations::all_operations();
    let mut out = BufWriter::new(io::stdout().lock());
    let mut print = |text: String| writeln!(out, "{}", text).map_err(|it| it.to_string());
    print(format!("# seed {} cases {}", seed, cases))?;
    let (mut drawn, mut index) = (0, 0);
    while drawn < cases {
        let mut random = Random::new(seed, index);
        let net = nets::draw_net(&mut random);
        for _ in 0..CASES_ON_A_NET {
            let operation = &operations[random.below(operations.len())];
            if drawn < cases && is_quick(&mut random, &net, operation) {
                print(draw::draw_case(&mut random, &net, &operations, operation).to_string())?;
                drawn += 1;
            }
        }
        index += 1;
    }
    Ok(())
}

/// An operation is rare where it takes long, and left to the benchmark where it takes very long.
fn is_quick(random: &mut Random, net: &Net, operation: &Operation) -> bool {
    let (nodes, words) = (net.nodes(), net.words.len());
    let steps = match operation.effort {
        Effort::Once => 0,
        Effort::EveryNode => nodes * words,
        Effort::EveryWord => nodes * words * words,
    };
    let share = match steps {
        0..=50_000 => 100,
        50_001..=1_000_000 => 2,
        _ => 0,
    };
    random.chance(share)
}

fn replay_file(cases: &str, printed: &str) -> Result<(), String> {
    let read = |name: &str| match std::fs::read(name) {
        Ok(bytes) => Ok(String::from_utf8_lossy(&bytes).into_owned()),
        Err(cause) => Err(format!("{}: {}", name, cause)),
    };
    let (cases, printed) = (read(cases)?, read(printed)?);
    let operations = operations::all_operations();
    let mut tally = Tally::new(&operations);
    let replayed = replay::replay(&operations, &cases, &printed, &mut tally)?;
    if let Some((seed, drawn)) = seed_of(&cases) {
        if replayed.taken != drawn {
            return Err(format!("readings took only {} cases", replayed.taken));
        }
        if drawn >= LONG_RUN {
            limits::calls_at_limit(seed, &operations, &mut tally)?;
            tally.print();
            tally.is_full()?;
        }
    }
    println!(
        "{} of {} cases run on the archive, {} held to the rules, no difference",
        replayed.on_archive, replayed.taken, replayed.by_rules
    );
    Ok(())
}

/// The seed and the number of cases in the first line of a file of drawn cases.
fn seed_of(cases: &str) -> Option<(u64, u64)> {
    let words: Vec<&str> = cases.lines().next()?.split(' ').collect();
    match words[..] {
        ["#", "seed", seed, "cases", cases] => Some((number(seed), number(cases))),
        _ => None,
    }
}
