//! Lists for the reason check: paths of the net, shortest and wandering, paths with something wrong, and no paths at all.

use crate::call::run;
use crate::case::{widened, Case};
use crate::fields::Field;
use crate::nets::{Net, ALL_ORIGINS};
use crate::operations::Operation;
use crate::random::Random;

/// Puts a list into the case. Where it is a path, the statement asked is mostly the one that it shows. Its links are mostly
/// chosen ones, and now and then of any origin.
pub fn draw_path(random: &mut Random, net: &Net, operations: &[Operation], case: &mut Case) {
    let chosen = case.words_of(Field::Set)[0];
    let set = random.pick(&[chosen, chosen, chosen, ALL_ORIGINS]);
    let mut list = match random.below(11) {
        0 => {
            let size = random.below(7);
            (0..size)
                .map(|_| random.below(net.nodes() + 2) as u32)
                .collect()
        }
        1 => {
            let size = random.below(7);
            (0..size).map(|_| any_place(random)).collect()
        }
        2 => without_first_part(random, net, set, case),
        3..=5 => shortest(net, set, operations, case),
        _ => wander(random, net, set, case),
    };
    if random.chance(45) {
        spoil(random, net, &mut list);
    }
    case.set(Field::Path, widened(&list));
}

fn any_place(random: &mut Random) -> u32 {
    random.below(65_536) as u32
}

/// The reason for the statement asked, or a list that is none.
fn shortest(net: &Net, set: u32, operations: &[Operation], case: &Case) -> Vec<u32> {
    let operation = operations.iter().find(|it| it.name == "reason");
    let operation = operation.expect("the archive gives reasons");
    let fill = |&field: &Field| match field {
        Field::Set => widened(&[set]),
        Field::Scratch => vec![0; 2 * net.nodes()],
        Field::Reason => vec![0; 2 * net.nodes() + 3],
        _ => case.values_of(field).to_vec(),
    };
    let asked = Case {
        operation,
        values: operation.fields.iter().map(fill).collect(),
    };
    let outcome = run(&asked, 0).expect("the archive keeps to its memory");
    let size = match outcome.answer.number {
        0 => outcome.answer.first as usize,
        _ => 3,
    };
    let list = outcome.lists[1].iter().take(size);
    list.map(|&place| place as u32).collect()
}

/// A path along random links, with kinds repeated now and then, and mostly the statement that it shows.
fn wander(random: &mut Random, net: &Net, set: u32, case: &mut Case) -> Vec<u32> {
    let mut first = vec![random.below(net.nodes()) as u32];
    let mut second = Vec::new();
    extend(random, net, set, &mut first, false);
    if random.chance(60) {
        let end = first[first.len() - 1];
        let back = random.chance(50);
        if let Some(crossed) = net.link_at(random, set, end, back, 1) {
            second.push(crossed);
            extend(random, net, set, &mut second, true);
        }
    }
    if random.chance(95) {
        let last = *second.last().unwrap_or(&first[first.len() - 1]);
        state(case, first[0], last, !second.is_empty() as u32);
    }
    let mut list = vec![first.len() as u32, second.len() as u32];
    list.extend(first);
    list.extend(second);
    list
}

/// A second part that is right in itself, with a first part of size 0.
fn without_first_part(random: &mut Random, net: &Net, set: u32, case: &mut Case) -> Vec<u32> {
    let mut second = vec![random.below(net.nodes()) as u32];
    extend(random, net, set, &mut second, true);
    state(case, second[0], second[second.len() - 1], 1);
    let mut list = vec![0, second.len() as u32];
    list.extend(second);
    list
}

/// Asks for a statement.
pub fn state(case: &mut Case, x: u32, y: u32, sign: u32) {
    case.set(Field::Node, widened(&[x]));
    case.set(Field::Kind, widened(&[y]));
    case.set(Field::Sign, widened(&[sign]));
}

/// Asks for one statement after another, mostly until one passes the test.
pub fn ask_until(random: &mut Random, net: &Net, case: &mut Case, passes: impl Fn(&Case) -> bool) {
    for _ in 0..6 {
        if random.chance(15) || passes(case) {
            return;
        }
        let x = random.below(net.nodes()) as u32;
        let y = net.o.wrapping_add(random.below(net.k as usize) as u32);
        state(case, x, y, random.below(2) as u32);
    }
}

/// Up to seven more steps of one part.
fn extend(random: &mut Random, net: &Net, set: u32, part: &mut Vec<u32>, back: bool) {
    for _ in 0..random.below(8) {
        let end = part[part.len() - 1];
        if random.chance(20) && end >= net.o {
            part.push(end);
        } else if let Some(next) = net.link_at(random, set, end, back, 0) {
            part.push(next);
        }
    }
}

/// One thing wrong, or perhaps wrong, with a list.
fn spoil(random: &mut Random, net: &Net, list: &mut Vec<u32>) {
    if list.is_empty() {
        return;
    }
    let at = random.below(list.len());
    let node = random.below(net.nodes() + 1) as u32;
    match random.below(10) {
        0 => list.truncate(at),
        1 => list.push(node),
        2 => list[at] = node,
        3 => list[at] = any_place(random),
        4 => list.insert(at, node),
        5 => drop(list.remove(at)),
        6 => list[0] = (list[0] + random.pick(&[1, 65_535])) % 65_536,
        7 => list[0] = 0,
        8 if list.len() > 1 => {
            list[0] = (list[0] + 1) % 65_536;
            list[1] = (list[1] + 65_535) % 65_536;
        }
        _ => {
            let last = list.len() - 1;
            let again = list[at.max(2).min(last)];
            list.insert(at.max(2).min(list.len()), again);
            list[0] = (list[0] + 1) % 65_536;
        }
    }
}
