//! Random cases on a net: right and wrong numbers, lists that fit, are too short or too long, all full of garbage. How a field is
//! drawn depends on its kind alone, so that an operation of known fields is drawn as soon as it stands in the table.

use crate::call::{run, Outcome};
use crate::case::{widened, Case};
use crate::derivations::draw_derivation;
use crate::fields::Field;
use crate::nets::{draw_illegal, draw_origin, plain, word, Net, ALL_ORIGINS};
use crate::operations::Operation;
use crate::paths::draw_path;
use crate::programs::draw_program;
use crate::proofs::draw_proof;
use crate::random::Random;

/// A case of the operation on the net.
pub fn draw_case<'a>(
    random: &mut Random,
    net: &Net,
    operations: &'a [Operation],
    operation: &'a Operation,
) -> Case<'a> {
    let mut draw = |&field: &Field| draw_field(random, net, field);
    let values = operation.fields.iter().map(&mut draw).collect();
    let mut case = Case { operation, values };
    if operation.fields.contains(&Field::Path) {
        draw_path(random, net, operations, &mut case);
    }
    if operation.fields.contains(&Field::Derivation) {
        draw_derivation(random, net, operations, &mut case);
    }
    if operation.fields.contains(&Field::Proof) {
        draw_proof(random, net, operations, &mut case);
    }
    if operation.fields.contains(&Field::Program) {
        draw_program(random, net, &mut case);
    }
    if operation.fields.contains(&Field::Links) && net.words.len() < 20 && random.chance(25) {
        case.set(Field::Links, completed(net, operations));
    }
    if operation.fields.contains(&Field::Model) && net.nodes() < 12 && random.chance(60) {
        let mut table = run_on(net, operations, "valuation", net.table_size()).lists[0].clone();
        table = spoilt(random, table);
        let behind = random.pick(&[0, 0, 0, 1, 5]);
        table.extend(garbage(random, Field::Model, behind));
        case.set(Field::Model, table);
    }
    if operation.fields.contains(&Field::FilledYes) && random.chance(60) {
        let filled = run_on(net, operations, "completion_by_rows", net.rows_size());
        case.set(Field::FilledYes, filled.lists[0].clone());
        case.set(Field::FilledNo, filled.lists[1].clone());
    }
    fit_to_pairs(random, &mut case);
    fit_to_result(random, net, &mut case);
    case
}

/// The values of a field. A budget is endless and a list for the result is empty until its size is known.
fn draw_field(random: &mut Random, net: &Net, field: Field) -> Vec<u64> {
    let nodes = net.nodes();
    match field {
        Field::Objects => widened(&[net.o]),
        Field::Kinds => widened(&[net.k]),
        Field::Words => widened(&net.words),
        Field::Plain | Field::Links => widened(&draw_plain(random, net)),
        Field::Set => widened(&[draw_set(random)]),
        Field::Word => widened(&[draw_word(random, net)]),
        Field::Node => widened(&[draw_node(random, net)]),
        Field::Kind => widened(&[draw_kind(random, net)]),
        Field::Sign => widened(&[draw_sign(random)]),
        Field::Budget => widened(&[u32::MAX]),
        Field::Pairs => widened(&draw_pairs(random, net)),
        Field::Marks => {
            let size = draw_marks_size(random, nodes);
            garbage(random, field, size)
        }
        Field::Scratch => {
            let size = draw_size(random, 2 * nodes);
            garbage(random, field, size)
        }
        Field::Yes | Field::No | Field::FilledYes | Field::FilledNo => {
            let size = draw_room(random, net.rows_size());
            garbage(random, field, size)
        }
        Field::Kept => {
            let size = draw_room(random, net.words.len());
            garbage(random, field, size)
        }
        Field::Dropped => {
            let size = draw_room(random, 3 * net.words.len());
            garbage(random, field, size)
        }
        Field::Table => {
            let size = draw_room(random, net.table_size());
            garbage(random, field, size)
        }
        Field::Model => {
            let size = draw_room(random, net.table_size()).min(field.shape().most);
            let values = (0..size).map(|_| random.below(4) as u64).collect();
            spoilt(random, values)
        }
        Field::Answers | Field::List | Field::Reason | Field::Lines => Vec::new(),
        Field::Path | Field::Derivation | Field::Proof | Field::Program => Vec::new(),
        Field::Commands => vec![0],
        Field::File => draw_file(random, net),
        Field::Byte => vec![random.below(256) as u64],
    }
}

/// The words of the net without their origins, and now and then as they are.
fn draw_plain(random: &mut Random, net: &Net) -> Vec<u32> {
    let mut words = net.words.clone();
    if random.chance(90) {
        words.iter_mut().for_each(|word| *word = plain(*word));
    }
    words
}

/// The values of a table, now and then with some changed, one of them perhaps into a byte that is no value.
fn spoilt(random: &mut Random, mut table: Vec<u64>) -> Vec<u64> {
    if !table.is_empty() && random.chance(40) {
        for _ in 0..random.within(1, 3) {
            let any = random.below(256) as u64;
            let at = random.below(table.len());
            table[at] = random.pick(&[0, 1, 2, 3, 0, 1, 2, 3, 4, any]);
        }
    }
    table
}

/// What an operation of the archive gives for the net with all its origins, where its other list has so many places.
fn run_on(net: &Net, operations: &[Operation], name: &str, places: usize) -> Outcome {
    let case = Case::filled(operations, name, |field| match field {
        Field::Objects => widened(&[net.o]),
        Field::Kinds => widened(&[net.k]),
        Field::Words => widened(&net.words),
        Field::Set => widened(&[ALL_ORIGINS]),
        Field::Marks => vec![0; net.nodes()],
        _ => vec![0; places],
    });
    run(&case, 0).expect("the archive keeps to its memory")
}

/// All that a net of a few nodes supports, in descending order; nothing for another.
fn completed(net: &Net, operations: &[Operation]) -> Vec<u64> {
    let outcome = run_on(net, operations, "completion", 200);
    let size = match outcome.answer.number {
        0 => outcome.answer.first as usize,
        _ => 0,
    };
    outcome.lists[1][..size].iter().rev().copied().collect()
}

/// As many bytes for answers as there are pairs, or about as many.
fn fit_to_pairs(random: &mut Random, case: &mut Case) {
    let size = draw_room(random, case.values_of(Field::Pairs).len() / 2);
    case.set(Field::Answers, garbage(random, Field::Answers, size));
}

/// Budget and lists around what the call answers with an endless budget and empty lists. Where it writes two lists, the first has room when it is asked
/// what the second needs.
fn fit_to_result(random: &mut Random, net: &Net, case: &mut Case) {
    let mut sizes = Vec::new();
    for field in [Field::Budget, Field::List, Field::Reason, Field::Lines] {
        if !case.operation.fields.contains(&field) {
            continue;
        }
        let outcome = run(case, 0).expect("the archive keeps to its memory");
        let answer = outcome.answer;
        if field == Field::Budget {
            let budget = draw_budget(random, answer.first, net.nodes() as u32);
            case.set(field, widened(&[budget]));
        } else {
            let needed = if answer.number == 8 { answer.first } else { 4 } as usize;
            case.set(field, vec![0; needed]);
            sizes.push((field, needed));
        }
    }
    for (field, needed) in sizes {
        let size = draw_size(random, needed);
        case.set(field, garbage(random, field, size));
    }
}

/// A list of garbage, at most as long as `readings` takes: any numbers, and in a long list runs of them.
fn garbage(random: &mut Random, field: Field, size: usize) -> Vec<u64> {
    let shape = field.shape();
    let size = size.min(shape.most);
    let longest = 1 + size / 64;
    let mut list = Vec::with_capacity(size);
    while list.len() < size {
        let number = random.next() >> (64 - 8 * shape.width);
        let end = list.len() + random.within(1, longest);
        list.resize(end.min(size), number);
    }
    list
}

/// Mostly a node, else a number from just past the last one to the largest.
pub fn draw_node(random: &mut Random, net: &Net) -> u32 {
    if random.chance(92) {
        return random.below(net.nodes()) as u32;
    }
    draw_wrong(random, net)
}

/// Mostly a kind, else an object or no node.
fn draw_kind(random: &mut Random, net: &Net) -> u32 {
    if random.chance(90) {
        return net.o.wrapping_add(random.below(net.k as usize) as u32);
    }
    if random.chance(50) {
        return random.below(net.o as usize) as u32;
    }
    draw_wrong(random, net)
}

/// The pairs of a screenful, mostly some that follow each other about the same node, and now and then too many or half a pair.
fn draw_pairs(random: &mut Random, net: &Net) -> Vec<u32> {
    let size = match random.below(100) {
        0..=4 => 0,
        5..=74 => random.within(1, 9),
        75..=84 => random.within(10, 63),
        85..=94 => 64,
        _ => random.within(65, 70),
    };
    let mut pairs = Vec::new();
    let mut node = draw_node(random, net);
    for _ in 0..size {
        if random.chance(30) {
            node = draw_node(random, net);
        }
        pairs.extend([node & 0xffff, draw_kind(random, net) & 0xffff]);
    }
    if random.chance(4) {
        pairs.push(node & 0xffff);
    }
    pairs
}

/// A legal word, if the net has a kind; and as often a word that is illegal, or any.
fn draw_word(random: &mut Random, net: &Net) -> u32 {
    if net.k == 0 || random.chance(50) {
        return draw_illegal(random, net);
    }
    let head = net.o as usize + random.below(net.k as usize);
    word(random.below(net.nodes()), head, random.below(2)) + draw_origin(random)
}

/// Mostly a set that leaves out no origin or one, else any, and now and then a number that is none.
fn draw_set(random: &mut Random) -> u32 {
    let any = random.next() as u32;
    match random.below(100) {
        0..=39 => ALL_ORIGINS,
        40..=64 => random.pick(&[14, 13, 11, 7]),
        65..=92 => any % 16,
        _ => random.pick(&[16, 17, 31, 255, 65_536, u32::MAX, any | 16]),
    }
}

fn draw_wrong(random: &mut Random, net: &Net) -> u32 {
    let nodes = net.nodes() as u32;
    let any = random.next() as u32;
    random.pick(&[
        nodes,
        nodes + 1,
        1024,
        65_536,
        65_536 + nodes / 2,
        u32::MAX,
        any,
    ])
}

fn draw_sign(random: &mut Random) -> u32 {
    let any = random.next() as u32;
    if random.chance(95) {
        random.below(2) as u32
    } else {
        random.pick(&[2, 3, 256, 65_536, u32::MAX, any])
    }
}

/// A size around the one needed.
fn draw_size(random: &mut Random, needed: usize) -> usize {
    match random.below(100) {
        0..=39 => needed,
        40..=69 => needed + random.within(1, 20),
        70..=79 => needed.saturating_sub(1),
        80..=89 => random.below(needed),
        90..=95 => needed + random.within(20, 3000),
        _ => 0,
    }
}

/// The same, with enough room more often.
fn draw_room(random: &mut Random, needed: usize) -> usize {
    if random.chance(60) {
        needed + random.below(3)
    } else {
        draw_size(random, needed)
    }
}

fn draw_marks_size(random: &mut Random, nodes: usize) -> usize {
    if random.chance(70) {
        nodes + random.pick(&[0, 0, 1, 9])
    } else {
        draw_size(random, nodes)
    }
}

/// A budget around the count that the scan has.
fn draw_budget(random: &mut Random, count: u32, nodes: u32) -> u32 {
    let part = random.below(count as usize + 1) as u32;
    random.pick(&[
        0,
        1,
        2,
        count,
        count,
        count + 1,
        count.saturating_sub(1),
        part,
        (3 * nodes).saturating_sub(1),
        3 * nodes,
        u32::MAX,
    ])
}

/// A net file with some questions, its bytes one by one, now and then damaged: one with a set of origins, or one of plain words.
fn draw_file(random: &mut Random, net: &Net) -> Vec<u64> {
    let with_set = random.chance(60);
    let words = if with_set {
        net.words.clone()
    } else {
        draw_plain(random, net)
    };
    let questions: Vec<u32> = (0..random.below(7))
        .map(|_| draw_node(random, net) & 0xffff | draw_kind(random, net) << 16)
        .collect();
    let set = if with_set {
        vec![draw_set(random)]
    } else {
        Vec::new()
    };
    let bodies = [vec![net.o, net.k], words, questions, set];
    let entries = 3 + with_set as usize;
    let mut start = 8 * entries as u32;
    let mut numbers = Vec::new();
    for body in &bodies[..entries] {
        let length = 4 * body.len() as u32;
        numbers.extend([start, length]);
        start += length;
    }
    if random.chance(30) {
        let at = random.below(numbers.len());
        let any = random.next() as u32;
        numbers[at] = random.pick(&[
            0,
            24,
            32,
            any,
            numbers[at] ^ 1,
            numbers[at] ^ 4,
            u32::MAX - numbers[at],
        ]);
    }
    bodies.iter().for_each(|body| numbers.extend(body));
    let bytes = numbers.iter().flat_map(|number| number.to_le_bytes());
    let mut file: Vec<u64> = bytes.map(u64::from).collect();
    if random.chance(20) {
        let any = random.below(file.len() + 1);
        let size = random.pick(&[
            any,
            0,
            23,
            24,
            31,
            32,
            39,
            file.len().saturating_sub(1),
            file.len() + 1,
            file.len() + 4,
            32_769,
        ]);
        file.resize(size, 0);
    }
    file
}
