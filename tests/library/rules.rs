//! Rules (3.1) to (3.5) as they stand in the request, closed over a small net by trying every rule on every pair, the rules of the report's
//! section 4, the conditions of its section 6 and the marker unit. What a call answers is held to them by code that the kit did not compile.

use std::collections::BTreeSet;

use crate::call::Outcome;
use crate::case::{widened, Case};
use crate::fields::Field;
use crate::lines::derives;
use crate::markers::simulated;
use crate::nets::{head_of, is_chosen, plain, row_size, tail_of, word, ALL_ORIGINS};
use crate::sequents::verdict;

const SMALL_NET: usize = 7;
/// The answer to a pair that is bad.
const BAD_PAIR: u64 = 255;

/// The chosen words of a legal net, without their origins.
fn chosen(words: &[u32], origins: u32) -> BTreeSet<u32> {
    let chosen = words.iter().filter(|&&it| is_chosen(origins, it));
    chosen.map(|&it| plain(it)).collect()
}

/// The plain words of all statements that the chosen words of a legal net support.
fn supported(o: usize, nodes: usize, words: &[u32], origins: u32) -> BTreeSet<u32> {
    let mut set = chosen(words, origins);
    set.extend((o..nodes).map(|p| word(p, p, 0))); // (3.1)
    loop {
        let known: Vec<(usize, usize, usize)> = set
            .iter()
            .map(|&it| (tail_of(it), head_of(it), it as usize % 2))
            .collect();
        for &(x, q, sign) in &known {
            if sign == 1 && x >= o {
                set.insert(word(q, x, 1)); // (3.3)
            }
            for &(y, r, other) in &known {
                if sign == 0 && y == q {
                    set.insert(word(x, r, other)); // (3.2), (3.4)
                }
                if sign == 0 && x >= o && other == 1 && y < o && r == q {
                    set.insert(word(y, x, 1)); // (3.5)
                }
            }
        }
        if set.len() == known.len() {
            return set;
        }
    }
}

/// The plain words that are left where each link, from the highest down, goes if the others support it.
fn compacted(o: usize, nodes: usize, words: &[u32]) -> BTreeSet<u32> {
    let mut left: BTreeSet<u32> = words.iter().copied().collect();
    let all: Vec<u32> = left.iter().rev().copied().collect();
    for it in all {
        left.remove(&it);
        let others: Vec<u32> = left.iter().copied().collect();
        if !supported(o, nodes, &others, ALL_ORIGINS).contains(&it) {
            left.insert(it);
        }
    }
    left
}

/// The smallest node that both is and is not some kind, and its smallest such kind.
fn clash(set: &BTreeSet<u32>) -> Option<[u32; 2]> {
    let both = |it: &&u32| **it % 2 == 0 && set.contains(&(**it + 1));
    let first = set.iter().find(both)?;
    Some([tail_of(*first) as u32, head_of(*first) as u32])
}

/// The plain words that are kept where each goes that clashes with those before it; and each other, with its node and kind.
fn mended(o: usize, nodes: usize, words: &[u32]) -> (Vec<u32>, Vec<u32>) {
    let (mut kept, mut dropped) = (Vec::new(), Vec::new());
    for &it in words {
        kept.push(it);
        if let Some(at) = clash(&supported(o, nodes, &kept, ALL_ORIGINS)) {
            kept.pop();
            dropped.push(it);
            dropped.extend(at);
        }
    }
    (kept, dropped)
}

/// Whether a statement holds in a valuation of that shape, by (6.1) to (6.4) of the report.
fn satisfied(o: usize, nodes: usize, model: &[u64], x: usize, y: usize, sign: usize) -> bool {
    let value = |d: usize, p: usize| model[d * (nodes - o) + p - o];
    let is_true = |d, p| value(d, p) & 1 != 0;
    let is_false = |d, p| value(d, p) & 2 != 0;
    let mut elements = 0..nodes;
    match (x < o, sign) {
        (true, 0) => is_true(x, y),
        (true, _) => is_false(x, y),
        (false, 0) => elements
            .all(|d| (is_true(d, y) || !is_true(d, x)) && (is_false(d, x) || !is_false(d, y))),
        (false, _) => elements
            .all(|d| (is_false(d, y) || !is_true(d, x)) && (is_false(d, x) || !is_true(d, y))),
    }
}

/// What rows answer about x and y: 0 none, 1 yes, 2 no, 3 both.
fn in_rows(yes: &[u64], no: &[u64], nodes: usize, x: usize, y: usize) -> u64 {
    let bit = |rows: &[u64]| rows[x * row_size(nodes) + y / 64] >> (y % 64) & 1;
    bit(yes) + 2 * bit(no)
}

/// The statements that the net of a small case supports.
struct Supported {
    o: usize,
    nodes: usize,
    set: BTreeSet<u32>,
}

impl Supported {
    /// What the rules answer to a question: 0 none, 1 yes, 2 no, 3 both. No answer where x is no node or y no kind.
    fn word(&self, x: usize, y: usize) -> Option<u64> {
        if x >= self.nodes || !(self.o..self.nodes).contains(&y) {
            return None;
        }
        let holds = |sign| self.set.contains(&word(x, y, sign)) as u64;
        Some(holds(0) + 2 * holds(1))
    }
}

/// Holds what a call that was done on a small net, spent its budget or found a proof or a program at fault, answered to the rules, where they decide it.
/// Whether they do.
pub fn held_to_rules(case: &Case, found: &Outcome) -> Result<bool, String> {
    let number = |field| case.values_of(field).first().map_or(0, |&it| it as usize);
    let o = number(Field::Objects);
    let nodes = o + number(Field::Kinds);
    if ![0, 6, 12, 16].contains(&found.answer.number) || nodes > SMALL_NET {
        return Ok(false);
    }
    let origins = number(Field::Set) as u32;
    let words = case.words_of(Field::Words);
    let set = supported(o, nodes, &words, origins);
    let net = Supported { o, nodes, set };
    let holds = match case.operation.name {
        "question" => {
            let asked = net.word(number(Field::Node), number(Field::Kind));
            asked == Some(found.answer.first.into())
        }
        "questions" => {
            let pairs = case.values_of(Field::Pairs).chunks(2);
            let words = pairs.map(|pair| {
                net.word(pair[0] as usize, pair[1] as usize)
                    .unwrap_or(BAD_PAIR)
            });
            words.zip(&found.lists[0]).all(|(word, &byte)| word == byte)
        }
        "compact" => {
            let left = compacted(o, nodes, &case.words_of(Field::Links));
            let mut list: Vec<u64> = left.into_iter().map(u64::from).collect();
            list.resize(found.lists[0].len(), 0);
            list == found.lists[0]
        }
        "mend" => {
            let (kept, dropped) = mended(o, nodes, &case.words_of(Field::Plain));
            found.answer.first as usize == kept.len()
                && found.answer.second as usize == dropped.len() / 3
                && found.lists[0].starts_with(&widened(&kept))
                && found.lists[1].starts_with(&widened(&dropped))
        }
        "completion_by_rows" => {
            let words: Vec<u32> = net.set.iter().copied().collect();
            let (yes, no, list) = (&found.lists[0], &found.lists[1], &found.lists[2]);
            let bits = 0..64 * row_size(nodes);
            let mut places = (0..nodes).flat_map(|x| bits.clone().map(move |y| (x, y)));
            found.answer.first as usize == words.len()
                && list.starts_with(&widened(&words))
                && places.all(|(x, y)| in_rows(yes, no, nodes, x, y) == net.word(x, y).unwrap_or(0))
        }
        "answer_in_rows" => {
            let [x, y] = [Field::Node, Field::Kind].map(number);
            let [yes, no] = [Field::FilledYes, Field::FilledNo].map(|rows| case.values_of(rows));
            in_rows(yes, no, nodes, x, y) == found.answer.first.into()
        }
        "valuation" => {
            let kinds = (o..nodes).collect::<Vec<usize>>();
            let cells = (0..nodes).flat_map(|x| kinds.iter().map(move |&y| (x, y)));
            let words = cells.map(|(x, y)| net.word(x, y));
            words
                .zip(&found.lists[0])
                .all(|(word, &byte)| word == Some(byte))
        }
        "satisfies" => {
            let [x, y, sign] = [Field::Node, Field::Kind, Field::Sign].map(number);
            let model = case.values_of(Field::Model);
            found.answer.first == satisfied(o, nodes, model, x, y, sign) as u32
        }
        "explain" => {
            let [x, y, sign] = [Field::Node, Field::Kind, Field::Sign].map(number);
            let goal = word(x, y, sign);
            let written = found.lists[2].iter().take(found.answer.first as usize);
            let list: Vec<u32> = written.map(|&it| it as u32).collect();
            let links = found.answer.second - 3;
            derives(o, nodes, &words, origins, goal, &list)
                && found.answer.first <= 4 * (2 * links + 1)
                && net.set.contains(&goal)
        }
        "derivation_check" => {
            let [x, y, sign] = [Field::Node, Field::Kind, Field::Sign].map(number);
            let goal = word(x, y, sign);
            let list = case.words_of(Field::Derivation);
            let holds = derives(o, nodes, &words, origins, goal, &list);
            found.answer.first == holds as u32 && (!holds || net.set.contains(&goal))
        }
        "proof" | "proof_check" => {
            let [x, y, sign] = [Field::Node, Field::Kind, Field::Sign].map(number);
            let goal = word(x, y, sign);
            let list: Vec<u32> = match case.operation.name {
                "proof" => {
                    let written = found.lists[1].iter().take(found.answer.first as usize);
                    written.map(|&it| it as u32).collect()
                }
                _ => case.words_of(Field::Proof),
            };
            let answered = match case.operation.name {
                "proof" => (0, 0),
                _ => (found.answer.number, found.answer.first),
            };
            verdict(o, nodes, &chosen(&words, origins), goal, &list) == answered
                && (answered.0 != 0 || net.set.contains(&goal))
        }
        "unit" => {
            let (program, marks) = (case.words_of(Field::Program), case.values_of(Field::Marks));
            let links = chosen(&words, origins);
            let budget = number(Field::Commands) as u32;
            let ran = simulated(nodes, &links, &program, budget, marks);
            let Outcome { answer, lists } = found;
            ran == (answer.number, answer.first, lists[0].clone())
        }
        _ => return Ok(false),
    };
    if holds {
        return Ok(true);
    }
    Err(format!("the rules answer otherwise than {}", found))
}
