//! Lists for the check of a proof: proofs of the archive, longer ones that are put together from them, and proofs with something wrong.

use crate::call::run;
use crate::case::{widened, Case};
use crate::fields::Field;
use crate::nets::{head_of, is_chosen, plain, tail_of, word, Net, ALL_ORIGINS};
use crate::operations::Operation;
use crate::paths::{ask_until, state};
use crate::random::Random;
use crate::sequents::{listed, steps_of, Step};

/// Puts a list into the case, mostly one with a statement that the net supports. Its links are mostly chosen ones.
pub fn draw_proof(random: &mut Random, net: &Net, operations: &[Operation], case: &mut Case) {
    let chosen = case.words_of(Field::Set)[0];
    let set = random.pick(&[chosen, chosen, chosen, ALL_ORIGINS]);
    ask_until(random, net, case, |case| {
        !proof_of(net, set, operations, case).is_empty()
    });
    let mut steps = proof_of(net, set, operations, case);
    for _ in 0..random.below(4) {
        lengthen(random, net, set, operations, case, &mut steps);
    }
    if random.chance(35) {
        spoil_steps(random, net, &mut steps);
    }
    let mut list = listed(&steps);
    if random.chance(35) {
        spoil(random, &mut list);
    }
    list.truncate(Field::Proof.shape().most);
    case.set(Field::Proof, widened(&list));
}

/// The steps of the archive's proof for the statement of the case; none where it gives none.
fn proof_of(net: &Net, set: u32, operations: &[Operation], case: &Case) -> Vec<Step> {
    let asked = Case::filled(operations, "proof", |field| match field {
        Field::Set => widened(&[set]),
        Field::Scratch => vec![0; 2 * net.nodes()],
        Field::List => vec![0; 2_038],
        _ => case.values_of(field).to_vec(),
    });
    let outcome = run(&asked, 0).expect("the archive keeps to its memory");
    let size = match outcome.answer.number {
        0 => outcome.answer.first as usize,
        _ => 0,
    };
    let list: Vec<u32> = outcome.lists[1].iter().map(|&it| it as u32).collect();
    steps_of(&list[..size])
}

/// A left rule in front of the steps, over a link of the net between kinds and with an object for which the archive can prove the left premise; where it
/// cannot, nothing.
fn lengthen(
    random: &mut Random,
    net: &Net,
    set: u32,
    operations: &[Operation],
    case: &Case,
    steps: &mut Vec<Step>,
) {
    let between = |&&it: &&u32| is_chosen(set, it) && tail_of(it) >= net.o as usize;
    let links: Vec<u32> = net.words.iter().filter(between).copied().collect();
    if links.is_empty() || net.o == 0 || steps.is_empty() {
        return;
    }
    let link = plain(random.pick(&links));
    let object = random.below(net.o as usize) as u32;
    let (p, q) = (tail_of(link) as u32, head_of(link) as u32);
    let (rule, kind, sign) = match (link % 2, random.chance(50)) {
        (0, true) => (4, p, 0),
        (0, false) => (5, q, 1),
        (_, true) => (6, p, 0),
        (_, false) => (7, q, 0),
    };
    let mut premise = case.clone();
    state(&mut premise, object, kind, sign);
    let mut longer = vec![[rule, object, link]];
    let left = proof_of(net, set, operations, &premise);
    if left.is_empty() {
        return;
    }
    longer.extend(left);
    longer.append(steps);
    *steps = longer;
}

/// One thing wrong, or perhaps wrong, with a step.
fn spoil_steps(random: &mut Random, net: &Net, steps: &mut Vec<Step>) {
    if steps.is_empty() {
        return;
    }
    let (at, other) = (random.below(steps.len()), random.below(steps.len()));
    let (nodes, any) = (net.nodes(), random.next() as u32);
    match random.below(8) {
        0 => steps[at][0] = random.below(9) as u32,
        1 => steps[at][1] = random.below(nodes + 2) as u32,
        2 => steps[at][2] ^= 1,
        3 => {
            steps[at][2] = word(
                random.below(nodes + 1),
                random.below(nodes + 1) % 1024,
                random.below(2),
            )
        }
        4 => steps[at][random.below(3)] = any,
        5 => steps.swap(at, other),
        6 => drop(steps.remove(at)),
        _ => steps.insert(at, steps[other]),
    }
}

/// One thing wrong with a list.
fn spoil(random: &mut Random, list: &mut Vec<u32>) {
    let at = random.below(list.len());
    let any = random.next() as u32;
    match random.below(6) {
        0 => list.truncate(at),
        1 => list.push(random.pick(&[0, 1, any])),
        2 => list[at] = list[at].wrapping_add(random.pick(&[1, 2, 3, u32::MAX])),
        3 => list[0] = random.pick(&[0, 1, 2, any]),
        4 => list[at] = any,
        _ => list.extend([1, 2, 3]),
    }
}
