//! Lists for the check of a derivation: derivations of the archive, longer ones with lines put in, and derivations with something wrong.

use crate::call::run;
use crate::case::{widened, Case};
use crate::fields::Field;
use crate::lines::{lines_of, said_by, Line};
use crate::nets::{is_chosen, plain, word, Net, ALL_ORIGINS};
use crate::operations::Operation;
use crate::paths::{ask_until, state};
use crate::random::Random;

/// Puts a list into the case. The statement asked is mostly the one that the list's last line says. Its links are mostly chosen ones.
pub fn draw_derivation(random: &mut Random, net: &Net, operations: &[Operation], case: &mut Case) {
    let chosen = case.words_of(Field::Set)[0];
    let set = random.pick(&[chosen, chosen, chosen, ALL_ORIGINS]);
    let wanted = random.pick(&[1, 2, 4, 6]);
    ask_until(random, net, case, |case| {
        derivation_of(net, set, operations, case).len() >= wanted
    });
    let mut lines = derivation_of(net, set, operations, case);
    for _ in 0..random.pick(&[0, 0, 1, 3, 8, 25]) {
        lengthen(random, net, set, &mut lines);
    }
    if let (Some(last), true) = (lines.last(), random.chance(95)) {
        let (x, y, sign) = said_by(last);
        state(case, x as u32, y as u32, sign);
    }
    if random.chance(45) {
        spoil_lines(random, net, &mut lines);
    }
    let mut list = lines.concat();
    if random.chance(15) {
        spoil(random, &mut list);
    }
    list.truncate(Field::Derivation.shape().most);
    case.set(Field::Derivation, widened(&list));
}

/// The lines of the archive's derivation of the statement of the case; none where it gives none.
fn derivation_of(net: &Net, set: u32, operations: &[Operation], case: &Case) -> Vec<Line> {
    let asked = Case::filled(operations, "explain", |field| match field {
        Field::Set => widened(&[set]),
        Field::Scratch => vec![0; 2 * net.nodes()],
        Field::Reason => vec![0; 2 * net.nodes() + 3],
        Field::Lines => vec![0; 16 * net.nodes()],
        _ => case.values_of(field).to_vec(),
    });
    let outcome = run(&asked, 0).expect("the archive keeps to its memory");
    let size = match outcome.answer.number {
        0 => outcome.answer.first as usize,
        _ => 0,
    };
    let list: Vec<u32> = outcome.lists[2].iter().map(|&it| it as u32).collect();
    lines_of(&list[..size])
}

/// One line more, somewhere among the lines and given by those above it; where the draw finds none, nothing.
fn lengthen(random: &mut Random, net: &Net, set: u32, lines: &mut Vec<Line>) {
    let at = random.below(lines.len() + 1);
    let drawn = (0..8).find_map(|_| draw_line(random, net, set, &lines[..at]));
    let drawn = match drawn {
        Some(drawn) => drawn,
        None => return,
    };
    for line in &mut lines[at..] {
        let places = match line[1] {
            2 | 4 | 5 => 2..4,
            3 => 2..3,
            _ => continue,
        };
        for number in &mut line[places] {
            *number += (*number >= at as u32) as u32;
        }
    }
    lines.insert(at, drawn);
}

/// A chosen link, a kind that is itself, or what a rule gives from lines above, as often by each rule; where there is none, nothing.
fn draw_line(random: &mut Random, net: &Net, set: u32, above: &[Line]) -> Option<Line> {
    let rule = random.below(6) as u32;
    if rule == 0 && !net.words.is_empty() {
        let i = random.below(net.words.len());
        let link = net.words[i];
        return is_chosen(set, link).then_some([plain(link), 0, i as u32, 0]);
    }
    if rule == 1 && net.k > 0 {
        let kind = net.o as usize + random.below(net.k as usize);
        return Some([word(kind, kind, 0), 1, 0, 0]);
    }
    let few = above.len().min(40);
    let pairs = (0..few).flat_map(|i| (0..few).map(move |j| (i, j)));
    let by_rule = pairs.filter_map(|(i, j)| given_by(net.o as usize, rule, above, i, j));
    let lines: Vec<Line> = by_rule.collect();
    (!lines.is_empty()).then(|| random.pick(&lines))
}

/// What a rule gives from two lines.
fn given_by(o: usize, rule: u32, above: &[Line], i: usize, j: usize) -> Option<Line> {
    let ((x, q, sign), (y, r, other)) = (said_by(&above[i]), said_by(&above[j]));
    let (said, second) = match (rule, sign, other) {
        (2, 0, 0) if q == y => (word(x, r, 0), j),
        (3, 1, _) if x >= o => (word(q, x, 1), 0),
        (4, 0, 1) if q == y => (word(x, r, 1), j),
        (5, 0, 1) if q == r && x >= o && y < o => (word(y, x, 1), j),
        _ => return None,
    };
    Some([said, rule, i as u32, second as u32])
}

/// One thing wrong, or perhaps wrong, with a line.
fn spoil_lines(random: &mut Random, net: &Net, lines: &mut Vec<Line>) {
    if lines.is_empty() {
        return;
    }
    let (at, other) = (random.below(lines.len()), random.below(lines.len()));
    let (nodes, any) = (net.nodes(), random.next() as u32);
    let near = random.below(lines.len().max(net.words.len()) + 2) as u32;
    match random.below(11) {
        0 => lines[at][1] = random.below(8) as u32,
        1 => lines[at][2] = near,
        2 => lines[at][3] = near,
        3 => lines[at][2] = at as u32,
        4 => lines[at].swap(2, 3),
        5 => lines[at][0] ^= 1,
        6 => {
            lines[at][0] = word(
                random.below(nodes + 1),
                random.below(nodes + 1),
                random.below(2),
            )
        }
        7 => lines[at][random.below(4)] = any,
        8 => lines.swap(at, other),
        9 => drop(lines.remove(at)),
        _ => lines.insert(at, lines[other]),
    }
}

/// One thing wrong with a list.
fn spoil(random: &mut Random, list: &mut Vec<u32>) {
    let at = random.below(list.len());
    let any = random.next() as u32;
    match random.below(5) {
        0 => list.truncate(at),
        1 => list.truncate(at / 4 * 4),
        2 => list.push(random.pick(&[0, 1, any])),
        3 => list.extend([0; 4]),
        _ => list.insert(at, any),
    }
}
