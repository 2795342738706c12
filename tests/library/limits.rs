//! Calls with more words than a case can have: the largest list that is allowed, and one word more. And the largest table of a valuation,
//! the largest rows, the longest derivations, the deepest proofs, and scans of large nets by the marker unit.

use crate::answer::Answer;
use crate::call::{run, Outcome};
use crate::case::{widened, Case};
use crate::draw::draw_case;
use crate::fields::Field;
use crate::lines::Line;
use crate::nets::{
    chain_net, draw_origin, plain, random_net, row_size, word, Net, ALL_ORIGINS, NODE_LIMIT,
    WORD_LIMIT,
};
use crate::operations::{Effort, Operation};
use crate::programs::merged_scan;
use crate::random::Random;
use crate::sequents::{listed, Step};
use crate::tally::Tally;

const MEND: &str = "mend";
const BY_ROWS: &str = "completion_by_rows";

/// What places hold before a call.
const GARBAGE: u64 = 0x5a5a_a5a5;

/// The fields that are a net's words.
const WORD_LISTS: [Field; 3] = [Field::Words, Field::Plain, Field::Links];

/// Every operation of the archive that is lent a net's words, on nets that are refused for their words and on nets with as many as are allowed.
pub fn calls_at_limit(
    seed: u64,
    operations: &[Operation],
    tally: &mut Tally,
) -> Result<(), String> {
    let mut random = Random::new(seed, u64::MAX);
    for (net, set, answer) in refused_nets(&mut random) {
        for operation in on_nets(operations) {
            let mut case = draw_case(&mut random, &net, operations, operation);
            if answer.number == 15 && !operation.fields.contains(&Field::Set) {
                continue;
            }
            case.set(Field::Set, widened(&[set]));
            let expected = Outcome::unchanged(&case, answer);
            hold(&case, &expected, tally)?;
        }
    }
    let shapes: [(usize, usize, usize, &[Effort]); 3] = [
        (
            0,
            1,
            2,
            &[Effort::Once, Effort::EveryNode, Effort::EveryWord],
        ),
        (9, 16, 200, &[Effort::EveryWord]),
        (24, 1000, 16_000, &[Effort::Once]),
    ];
    for (o, k, size, efforts) in shapes {
        let mut few = random_net(&mut random, o, k, size, 20);
        few.words
            .iter_mut()
            .for_each(|word| *word += draw_origin(&mut random));
        let many = repeated(&mut random, &few);
        let quick = |it: &&Operation| match it.name {
            MEND => false,
            BY_ROWS => true,
            _ => efforts.contains(&it.effort),
        };
        for operation in on_nets(operations).filter(quick) {
            let mut case = draw_case(&mut random, &few, operations, operation);
            case.set(Field::Set, vec![random.below(16) as u64]);
            case.set(Field::Links, without_origins(&few.words));
            let mut expected = run(&case, 0)?;
            let mut whole = case;
            whole.set(Field::Words, widened(&many.words));
            whole.set(Field::Links, without_origins(&many.words));
            if operation.fields.contains(&Field::Links) {
                match expected.answer.number {
                    0 => expected.lists[0].resize(many.words.len(), 0),
                    _ => expected = Outcome::unchanged(&whole, expected.answer),
                }
            }
            hold(&whole, &expected, tally)?;
        }
    }
    mend_clashing(operations, tally)?;
    fill_largest_table(operations, tally)?;
    complete_longest_chain(operations, tally)?;
    explain_longest(operations, tally)?;
    prove_deepest(operations, tally)?;
    scan_by_program(&mut random, operations, tally)
}

/// As many words as are allowed, none of which can be kept: what is kept is read again for every word, so that others would take
/// too long. With a place less the call is number 8.
fn mend_clashing(operations: &[Operation], tally: &mut Tally) -> Result<(), String> {
    let clashing = word(0, 0, 1).into();
    for missing in [0, 1] {
        let case = Case::filled(operations, MEND, |field| match field {
            Field::Objects => vec![0],
            Field::Kinds => vec![1],
            Field::Plain => vec![clashing; WORD_LIMIT],
            Field::Kept => vec![7; WORD_LIMIT],
            Field::Dropped => vec![8; 3 * WORD_LIMIT - missing],
            _ => vec![9; 2],
        });
        let limit = WORD_LIMIT as u32;
        let (answer, dropped) = match missing {
            0 => (
                Answer::new(0, 0, limit),
                [clashing, 0, 0].repeat(WORD_LIMIT),
            ),
            _ => (Answer::new(8, limit, 0), vec![8; 3 * WORD_LIMIT - missing]),
        };
        let lists = vec![vec![7; WORD_LIMIT], dropped, vec![0, 9]];
        hold(&case, &Outcome { answer, lists }, tally)?;
    }
    Ok(())
}

/// A net of kinds alone, as many as are allowed: each of them is the last, and the last is not the first, so that the first is no kind
/// and no kind is the first. Its table with a byte to spare, and with one too few; then statements in what was filled.
fn fill_largest_table(operations: &[Operation], tally: &mut Tally) -> Result<(), String> {
    const LAST: usize = NODE_LIMIT - 1;
    let mut words: Vec<u32> = (0..NODE_LIMIT).map(|p| word(p, LAST, 0)).collect();
    words.push(word(LAST, 0, 1));
    let value = |x: usize, y: usize| {
        let (yes, no) = (y == x || y == LAST, x == 0 || y == 0);
        yes as u64 + 2 * no as u64
    };
    let size = NODE_LIMIT * NODE_LIMIT;
    let values = (0..size).map(|at| value(at / NODE_LIMIT, at % NODE_LIMIT));
    let mut filled: Vec<u64> = values.collect();
    filled.push(200);
    for length in [size + 1, size - 1] {
        let case = Case::filled(operations, "valuation", |field| match field {
            Field::Objects => vec![0],
            Field::Kinds => vec![NODE_LIMIT as u64],
            Field::Words => widened(&words),
            Field::Set => widened(&[ALL_ORIGINS]),
            Field::Table => vec![200; length],
            _ => vec![9; NODE_LIMIT + 1],
        });
        let expected = if length < size {
            Outcome::unchanged(&case, Answer::new(13, 0, 0))
        } else {
            let mut marks = vec![0; NODE_LIMIT];
            marks.push(9);
            Outcome {
                answer: Answer::new(0, 0, 0),
                lists: vec![filled.clone(), marks],
            }
        };
        hold(&case, &expected, tally)?;
    }
    let mut bad = filled.clone();
    bad[size - 1] = 4;
    let short = &filled[..size - 1];
    let tests: [(&[u64], usize, usize, usize, Answer); 7] = [
        (&filled, 5, LAST, 0, Answer::new(0, 1, 0)),
        (&filled, 5, 0, 1, Answer::new(0, 1, 0)),
        (&filled, 0, LAST, 1, Answer::new(0, 1, 0)),
        (&filled, 5, 6, 0, Answer::new(0, 0, 0)),
        (&filled, 5, LAST, 1, Answer::new(0, 0, 0)),
        (&bad, 5, LAST, 0, Answer::new(13, 0, 0)),
        (short, 5, LAST, 0, Answer::new(13, 0, 0)),
    ];
    for (model, x, y, sign, answer) in tests {
        let case = Case::filled(operations, "satisfies", |field| match field {
            Field::Objects => vec![0],
            Field::Kinds => vec![NODE_LIMIT as u64],
            Field::Model => model.to_vec(),
            Field::Node => vec![x as u64],
            Field::Kind => vec![y as u64],
            _ => vec![sign as u64],
        });
        hold(&case, &Outcome::unchanged(&case, answer), tally)?;
    }
    Ok(())
}

/// A chain of as many kinds as are allowed, whose last is not itself: a kind is itself and those after it, and it is not any kind.
/// Rows that are enough, have a word behind them or have one too few, with a list that fits or does not; then questions to them.
fn complete_longest_chain(operations: &[Operation], tally: &mut Tally) -> Result<(), String> {
    const LAST: usize = NODE_LIMIT - 1;
    let each = row_size(NODE_LIMIT);
    let size = NODE_LIMIT * each;
    let mut words: Vec<u32> = (0..LAST).map(|p| word(p, p + 1, 0)).collect();
    words.push(word(LAST, LAST, 1));
    let kinds = (0..NODE_LIMIT).flat_map(|x| (0..NODE_LIMIT).map(move |y| (x, y)));
    let said = kinds.flat_map(|(x, y)| [(y >= x).then(|| word(x, y, 0)), Some(word(x, y, 1))]);
    let list: Vec<u64> = said.flatten().map(u64::from).collect();
    let row_word = |at: usize| {
        let from_x = |t: &usize| at % each * 64 + t >= at / each;
        (0..64).filter(from_x).fold(0, |bits, t| bits | 1u64 << t)
    };
    let yes: Vec<u64> = (0..size).map(row_word).collect();
    let no = vec![u64::MAX; size];
    let count = list.len();
    let written = |front: &[u64], length: usize| {
        let mut whole = front.to_vec();
        whole.resize(length, GARBAGE);
        whole
    };
    for (yes_len, no_len, list_len) in [
        (size, size, count),
        (size + 1, size + 2, count + 1),
        (size, size, count - 1),
        (size - 1, size, count),
        (size, size - 1, count),
    ] {
        let case = Case::filled(operations, BY_ROWS, |field| match field {
            Field::Objects => vec![0],
            Field::Kinds => vec![NODE_LIMIT as u64],
            Field::Words => widened(&words),
            Field::Set => widened(&[ALL_ORIGINS]),
            Field::Yes => vec![GARBAGE; yes_len],
            Field::No => vec![GARBAGE; no_len],
            _ => vec![GARBAGE; list_len],
        });
        let expected = if yes_len.min(no_len) < size {
            Outcome::unchanged(&case, Answer::new(5, 0, 0))
        } else {
            let fits = list_len >= count;
            let front: &[u64] = if fits { &list } else { &[] };
            Outcome {
                answer: Answer::new(if fits { 0 } else { 8 }, count as u32, 0),
                lists: vec![
                    written(&yes, yes_len),
                    written(&no, no_len),
                    written(front, list_len),
                ],
            }
        };
        hold(&case, &expected, tally)?;
    }
    let questions = [
        (&yes[..], 0, LAST, Answer::new(0, 3, 0)),
        (&yes, LAST, LAST, Answer::new(0, 3, 0)),
        (&yes, LAST, 0, Answer::new(0, 2, 0)),
        (&yes, 63, 64, Answer::new(0, 3, 0)),
        (&yes, 64, 63, Answer::new(0, 2, 0)),
        (&yes[..size - 1], 0, 0, Answer::new(5, 0, 0)),
        (&yes, 0, NODE_LIMIT, Answer::new(4, 0, 0)),
    ];
    for (filled, x, y, answer) in questions {
        let case = Case::filled(operations, "answer_in_rows", |field| match field {
            Field::Objects => vec![0],
            Field::Kinds => vec![NODE_LIMIT as u64],
            Field::FilledYes => filled.to_vec(),
            Field::FilledNo => no.clone(),
            Field::Node => vec![x as u64],
            _ => vec![y as u64],
        });
        hold(&case, &Outcome::unchanged(&case, answer), tally)?;
    }
    Ok(())
}

/// A chain of as many nodes as are allowed, of kinds alone or from an object, whose last kind is not itself: that its first node is not its first kind takes
/// the longest path that there is, up the whole chain and down again, and the longest derivation. Lists with a place to spare, and with one too few; then
/// what the check says to the lines, whole, without the last one and with the link at the end under another index.
fn explain_longest(operations: &[Operation], tally: &mut Tally) -> Result<(), String> {
    const LAST: usize = NODE_LIMIT - 1;
    const NO_WAY: u64 = 65_535;
    let mut words: Vec<u32> = (0..LAST).map(|v| word(v, v + 1, 0)).collect();
    words.push(word(LAST, LAST, 1));
    for (o, count) in [(0, 4094), (1, 4091)] {
        let fill = |field| match field {
            Field::Objects => vec![o as u64],
            Field::Kinds => vec![(NODE_LIMIT - o) as u64],
            Field::Words => widened(&words),
            Field::Set => vec![ALL_ORIGINS.into()],
            Field::Node => vec![0],
            Field::Kind => vec![o as u64],
            _ => vec![1],
        };
        let lines = longest_derivation(o);
        let (list, places) = (widened(&lines.concat()), 4 * count);
        if list.len() != places {
            return Err(format!("the longest derivation has {} places", list.len()));
        }
        let path = (0..=LAST).chain((o..=LAST).rev());
        let sizes = [NODE_LIMIT, NODE_LIMIT - o];
        let reason: Vec<u64> = sizes.into_iter().chain(path).map(|it| it as u64).collect();
        let up = (0..=LAST).map(|v| (LAST - v + 1 + LAST - o) as u64);
        let down = (0..=LAST).map(|v| if v < o { NO_WAY } else { (v - o) as u64 });
        let scratch: Vec<u64> = up.chain(down).chain([9]).collect();
        let written = |list: &[u64], room: usize| match room < list.len() {
            true => vec![7; room],
            false => [list, &vec![7; room - list.len()]].concat(),
        };
        let nodes = reason.len();
        for (reason_len, lines_len) in [
            (nodes + 1, places + 1),
            (nodes, places),
            (nodes, places - 1),
            (nodes - 1, places),
            (0, 0),
        ] {
            let case = Case::filled(operations, "explain", |field| match field {
                Field::Scratch => vec![9; 2 * NODE_LIMIT + 1],
                Field::Reason => vec![7; reason_len],
                Field::Lines => vec![7; lines_len],
                _ => fill(field),
            });
            let answer = match (reason_len < nodes, lines_len < places) {
                (true, _) => Answer::new(8, nodes as u32, 0),
                (_, true) => Answer::new(8, places as u32, 1),
                _ => Answer::new(0, places as u32, nodes as u32),
            };
            let front: &[u64] = if answer.number == 0 { &list } else { &[] };
            let lists = vec![
                scratch.clone(),
                written(&reason, reason_len),
                written(front, lines_len),
            ];
            hold(&case, &Outcome { answer, lists }, tally)?;
        }
        let mut renamed = list.clone();
        let crossing = renamed.iter().position(|&it| it == words[LAST].into());
        renamed[crossing.expect("the derivation has every link") + 2] -= 1;
        for (list, holds) in [(&list[..], 1), (&list[..places - 4], 0), (&renamed, 0)] {
            let case = Case::filled(operations, "derivation_check", |field| match field {
                Field::Derivation => list.to_vec(),
                _ => fill(field),
            });
            let answer = Answer::new(0, holds, 0);
            hold(&case, &Outcome::unchanged(&case, answer), tally)?;
        }
    }
    Ok(())
}

/// The lines that the chain's longest path has: up by (3.2), and down by (3.5) under an object, by (3.4) to a kind.
fn longest_derivation(o: usize) -> Vec<Line> {
    const LAST: usize = NODE_LIMIT - 1;
    let link = |v: usize| -> Line { [word(v, v + 1, 0), 0, v as u32, 0] };
    let mut lines = vec![link(0)];
    for v in 2..=LAST {
        let n = lines.len() as u32;
        lines.extend([link(v - 1), [word(0, v, 0), 2, n - 1, n]]);
    }
    let top = lines.len() as u32 - 1;
    lines.push([word(LAST, LAST, 1), 0, LAST as u32, 0]);
    if o == 1 {
        lines.push([word(0, LAST, 1), 4, top, top + 1]);
    }
    for v in (o..LAST).rev() {
        let n = lines.len() as u32;
        let lower = match o {
            1 => [word(0, v, 1), 5, n, n - 1],
            _ => [word(v, LAST, 1), 4, n, n - 1],
        };
        lines.extend([link(v), lower]);
    }
    if o == 0 {
        let n = lines.len() as u32;
        lines.extend([[word(LAST, 0, 1), 3, n - 1, 0], [word(0, 0, 1), 4, top, n]]);
    }
    lines
}

/// A chain that begins with an object, and one of kinds alone. Up to one of its kinds the proof has as many sequents one above another as are allowed; up to the next
/// it has one more, and the last of them is at fault. Each proof with room for it, and with a place too few.
fn prove_deepest(operations: &[Operation], tally: &mut Tally) -> Result<(), String> {
    const DEEPEST: usize = 255;
    const NO_WAY: u64 = 65_535;
    for (o, last) in [(1, DEEPEST), (0, DEEPEST - 2)] {
        let nodes = last + 2;
        let words: Vec<u32> = (1..nodes).map(|v| word(v - 1, v, 0)).collect();
        let own = if o == 1 { 0 } else { nodes };
        let fill = |field, y: usize| match field {
            Field::Objects => vec![o as u64],
            Field::Kinds => vec![(nodes - o) as u64],
            Field::Words => widened(&words),
            Field::Set => vec![ALL_ORIGINS.into()],
            Field::Kind => vec![y as u64],
            _ => vec![0],
        };
        for y in [last, last + 1] {
            let step = |rule, link| -> Step { [rule, own as u32, link] };
            let first = (o == 0).then(|| step(2, word(0, y, 0)));
            let left = (o + 1..=y).rev().map(|v| step(4, word(v - 1, v, 0)));
            let axioms = (o..=y).map(|v| step(0, word(own, v, 0)));
            let steps: Vec<Step> = first.into_iter().chain(left).chain(axioms).collect();
            let list = widened(&listed(&steps));
            let ways = (0..2 * nodes).map(|v| if v <= y { (y - v) as u64 } else { NO_WAY });
            let scratch: Vec<u64> = ways.chain([9]).collect();
            for room in [list.len() + 1, list.len() - 1] {
                let case = Case::filled(operations, "proof", |field| match field {
                    Field::Scratch => vec![9; 2 * nodes + 1],
                    Field::List => vec![7; room],
                    _ => fill(field, y),
                });
                let (answer, left) = match (y > last, room < list.len()) {
                    (true, _) => (Answer::new(11, 0, 0), vec![7; room]),
                    (_, true) => (Answer::new(8, list.len() as u32, 0), vec![7; room]),
                    _ => {
                        let mut written = list.clone();
                        written.push(7);
                        (Answer::new(0, list.len() as u32, 0), written)
                    }
                };
                let lists = vec![scratch.clone(), left];
                hold(&case, &Outcome { answer, lists }, tally)?;
            }
            let case = Case::filled(operations, "proof_check", |field| match field {
                Field::Proof => list.clone(),
                _ => fill(field, y),
            });
            let answer = match y > last {
                true => Answer::new(12, DEEPEST as u32, 0),
                false => Answer::new(0, 0, 0),
            };
            hold(&case, &Outcome::unchanged(&case, answer), tally)?;
        }
    }
    Ok(())
}

/// The written program on nets of as many nodes as are allowed: the marks of the scan, and three commands and five for each of its rounds. With a command less
/// the budget is spent, and the last command sets nothing.
fn scan_by_program(
    random: &mut Random,
    operations: &[Operation],
    tally: &mut Tally,
) -> Result<(), String> {
    let nets = [
        random_net(random, 24, 1000, 16_000, 20),
        chain_net(random, 0, NODE_LIMIT),
        chain_net(random, 1, NODE_LIMIT - 1),
    ];
    for net in nets {
        let start = random.below(NODE_LIMIT) as u32;
        let fill = |field, commands| match field {
            Field::Objects => widened(&[net.o]),
            Field::Kinds => widened(&[net.k]),
            Field::Words => widened(&net.words),
            Field::Set => widened(&[ALL_ORIGINS]),
            Field::Node => widened(&[start]),
            Field::Budget => widened(&[u32::MAX]),
            Field::Program => widened(&merged_scan(start)),
            Field::Commands => widened(&[commands]),
            _ => vec![0xa5; NODE_LIMIT + 1],
        };
        let scan = Case::filled(operations, "scan", |field| fill(field, 0));
        let scanned = run(&scan, 0)?;
        let count = 3 + 5 * scanned.answer.first;
        for (commands, number) in [(u32::MAX, 0), (count, 0), (count - 1, 6)] {
            let case = Case::filled(operations, "unit", |field| fill(field, commands));
            let expected = Outcome {
                answer: Answer::new(number, count.min(commands), 0),
                lists: scanned.lists.clone(),
            };
            hold(&case, &expected, tally)?;
        }
    }
    Ok(())
}

fn without_origins(words: &[u32]) -> Vec<u64> {
    words.iter().map(|&word| plain(word).into()).collect()
}

fn on_nets(operations: &[Operation]) -> impl Iterator<Item = &Operation> {
    let lent_words = |it: &&Operation| WORD_LISTS.iter().any(|list| it.fields.contains(list));
    operations
        .iter()
        .filter(|it| it.call.is_some())
        .filter(lent_words)
}

/// Nets, and sets to read them with. One word too many, with and without too many nodes, an illegal word and a set that is none;
/// and as many as are allowed, the last one illegal by its head, with that set and with one that leaves the word out.
fn refused_nets(random: &mut Random) -> Vec<(Net, u32, Answer)> {
    let over = random_net(random, 1, 2, WORD_LIMIT + 1, 20);
    let mut both = over.clone();
    both.o = 1023;
    let mut illegal = over.clone();
    illegal.words[0] = 0;
    let mut last = over.clone();
    last.words.truncate(WORD_LIMIT);
    last.words[WORD_LIMIT - 1] = 0;
    vec![
        (over, ALL_ORIGINS, Answer::new(2, 0, 0)),
        (both, u32::MAX, Answer::new(1, 0, 0)),
        (illegal, 16, Answer::new(2, 0, 0)),
        (last.clone(), 16, Answer::new(15, 0, 0)),
        (last, 0, Answer::new(3, WORD_LIMIT as u32 - 1, 2)),
    ]
}

/// The net with its words repeated until there are as many as are allowed. A repeated word counts once, so that nothing changes.
fn repeated(random: &mut Random, net: &Net) -> Net {
    let mut many = net.clone();
    while many.words.len() < WORD_LIMIT {
        many.words.push(random.pick(&net.words));
    }
    many
}

/// Runs a case and holds its outcome to the one expected.
fn hold(case: &Case, expected: &Outcome, tally: &mut Tally) -> Result<(), String> {
    let found = run(case, 1)?;
    tally.add(case.operation, found.answer)?;
    if found == *expected {
        return Ok(());
    }
    Err(format!(
        "{} with {} words\nexpected: {}\narchive:  {}",
        case.operation.name,
        WORD_LISTS
            .map(|list| case.values_of(list).len())
            .iter()
            .sum::<usize>(),
        expected,
        found
    ))
}
