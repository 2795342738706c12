//! The plain engine: the timed operations of the request in ordinary Rust. Its algorithms are the proved engine's, so that
//! the two can be timed against each other: a scan is the marker machine by a plan of `marks.rs`, the commands along one sign are one
//! pass over the words, and so is a level of distances, a link of an origin that is not chosen is left out where it is read, and nothing
//! is allocated. The search of a reason has a branch for each test of a move, where the proved one has a single comparison.

use crate::engine::{Answer, Engine};
use crate::marks::{Base, Best, Plan, F, T, U};
use crate::nets::{
    head_of, is_chosen, origin_of, plain as plain_of, row_size, tail_of, word, ALL_ORIGINS,
    ORIGINS, WORD_LIMIT,
};
use crate::rows;
use std::marker::PhantomData;

const NODE_LIMIT: usize = 1024;
const NO_WAY: u16 = 65_535;

/// The most pairs of a screenful, and the byte for one that is bad.
const PAIR_LIMIT: usize = 64;
const BAD_PAIR: u8 = 255;

/// Why a word is illegal; the origin is looked at first, then the tail.
const CAUSE_ORIGIN: u32 = 3;
const CAUSE_TAIL: u32 = 1;
const CAUSE_HEAD: u32 = 2;

/// The functions of this file, with scans by a plan.
struct By<P>(PhantomData<P>);

impl<P: Plan> By<P> {
    const ENGINE: Engine = Engine {
        check_net,
        scan: scan::<P>,
        question: question::<P>,
        questions: questions::<P>,
        completion: completion::<P>,
        completion_by_rows,
        clash: clash::<P>,
        compact: compact::<P>,
        mend: mend::<P>,
        reason,
        reason_check,
    };
}

/// The best plan, and that of the engine's first version.
pub const ENGINE: Engine = By::<Best>::ENGINE;
pub const BASE: Engine = By::<Base>::ENGINE;

/// The same with rows by code for each size of a row.
pub const BY_SIZE: Engine = Engine {
    completion_by_rows: completion_by_sized_rows,
    ..ENGINE
};

/// What an operation answers; a refusal leaves it early as an `Err`.
type Outcome = Result<Answer, Answer>;

fn refused<T>(number: u32) -> Result<T, Answer> {
    Err(Answer::new(number, 0, 0))
}

/// Plain words have origin 0 alone, and are read with the set of it.
const PLAIN: u32 = 1;

/// The operation on the net, if that passes numbers 1, 2, 15 and 3.
fn on_net(
    o: u32,
    k: u32,
    words: &[u32],
    set: u32,
    operation: impl FnOnce(&Net) -> Outcome,
) -> Answer {
    given(Net::checked(o, k, words, set, ORIGINS as u32).and_then(|net| operation(&net)))
}

fn given(outcome: Outcome) -> Answer {
    match outcome {
        Ok(answer) | Err(answer) => answer,
    }
}

fn check_net(o: u32, k: u32, words: &[u32], set: u32) -> Answer {
    on_net(o, k, words, set, |net| {
        Ok(Answer::new(0, net.nodes as u32, 0))
    })
}

fn scan<P: Plan>(
    o: u32,
    k: u32,
    words: &[u32],
    set: u32,
    start: u32,
    budget: u32,
    marks: &mut [u8],
) -> Answer {
    on_net(o, k, words, set, |net| {
        let x = net.node(start)?;
        let (ended, count) = net.scan::<P>(x, budget, net.places(1, marks)?);
        Ok(Answer::new(if ended { 0 } else { 6 }, count, 0))
    })
}

fn question<P: Plan>(
    o: u32,
    k: u32,
    words: &[u32],
    set: u32,
    x: u32,
    y: u32,
    marks: &mut [u8],
) -> Answer {
    on_net(o, k, words, set, |net| {
        let (x, y) = (net.node(x)?, net.kind(y)?);
        let marks = net.places(1, marks)?;
        let count = net.scan_whole::<P>(x, marks);
        Ok(Answer::new(0, answer(marks[y]), count))
    })
}

fn questions<P: Plan>(
    o: u32,
    k: u32,
    words: &[u32],
    set: u32,
    pairs: &[u16],
    answers: &mut [u8],
    marks: &mut [u8],
) -> Answer {
    on_net(o, k, words, set, |net| {
        let count = pairs.len() / 2;
        if pairs.len() % 2 != 0 || count > PAIR_LIMIT || answers.len() < count {
            return refused(10);
        }
        let marks = net.places(1, marks)?;
        let mut scanned = None;
        for (pair, byte) in pairs.chunks(2).zip(answers) {
            let (x, y) = match (net.node(pair[0] as u32), net.kind(pair[1] as u32)) {
                (Ok(x), Ok(y)) => (x, y),
                _ => {
                    *byte = BAD_PAIR;
                    continue;
                }
            };
            if scanned != Some(x) {
                net.scan_whole::<P>(x, marks);
                scanned = Some(x);
            }
            *byte = answer(marks[y]) as u8;
        }
        Ok(Answer::new(0, 0, 0))
    })
}

fn completion<P: Plan>(
    o: u32,
    k: u32,
    words: &[u32],
    set: u32,
    marks: &mut [u8],
    list: &mut [u32],
) -> Answer {
    on_net(o, k, words, set, |net| {
        let marks = net.places(1, marks)?;
        let size = match P::COUNTS || list.len() < net.most_words() {
            true => net.count_supported::<P>(marks),
            false => 0,
        };
        let fits = size <= list.len();
        let size = match fits {
            true => net.write_supported::<P>(marks, list),
            false => size,
        };
        marks.fill(0);
        Ok(Answer::new(if fits { 0 } else { 8 }, size as u32, 0))
    })
}

fn completion_by_rows(
    o: u32,
    k: u32,
    words: &[u32],
    set: u32,
    yes: &mut [u64],
    no: &mut [u64],
    list: &mut [u32],
) -> Answer {
    on_net(o, k, words, set, |net| {
        let (yes, no) = net.rows(yes, no)?;
        rows::fill(net.objects, net.nodes, net.links(), yes, no);
        Ok(write_rows(net.nodes, yes, no, list))
    })
}

fn completion_by_sized_rows(
    o: u32,
    k: u32,
    words: &[u32],
    set: u32,
    yes: &mut [u64],
    no: &mut [u64],
    list: &mut [u32],
) -> Answer {
    on_net(o, k, words, set, |net| {
        let (yes, no) = net.rows(yes, no)?;
        rows::fill_by_size(net.objects, net.nodes, net.links(), yes, no);
        Ok(write_rows(net.nodes, yes, no, list))
    })
}

/// What filled rows say, into a list that has room for it.
fn write_rows(nodes: usize, yes: &[u64], no: &[u64], list: &mut [u32]) -> Answer {
    let size = rows::count(yes, no);
    if size > list.len() {
        return Answer::new(8, size as u32, 0);
    }
    rows::write(nodes, yes, no, &mut list[..size]);
    Answer::new(0, size as u32, 0)
}

fn clash<P: Plan>(o: u32, k: u32, words: &[u32], set: u32, marks: &mut [u8]) -> Answer {
    on_net(o, k, words, set, |net| {
        let marks = net.places(1, marks)?;
        let found = (0..net.nodes).find_map(|x| {
            net.scan_whole::<P>(x, marks);
            let mut kinds = net.objects..net.nodes;
            Some((x, kinds.find(|&y| marks[y] & (U | F) == U | F)?))
        });
        marks.fill(0);
        match found {
            Some((x, y)) => Ok(Answer::new(0, x as u32, y as u32)),
            None => refused(7),
        }
    })
}

fn compact<P: Plan>(o: u32, k: u32, list: &mut [u32], marks: &mut [u8]) -> Answer {
    given(compact_plain::<P>(o, k, list, marks))
}

fn compact_plain<P: Plan>(o: u32, k: u32, list: &mut [u32], marks: &mut [u8]) -> Outcome {
    let Net { objects, nodes, .. } = Net::checked(o, k, list, PLAIN, 1)?;
    let marks = match marks.get_mut(..nodes) {
        Some(marks) => marks,
        None => return refused(5),
    };
    list.sort_unstable();
    let mut size = remove_repeats(list);
    for at in (0..size).rev() {
        // The link goes behind the others, and comes back where they do not support it.
        list[at..size].rotate_left(1);
        let (others, link) = list[..size].split_at(size - 1);
        let net = Net {
            objects,
            nodes,
            words: others,
            set: PLAIN,
        };
        if net.supports::<P>(link[0], marks) {
            size -= 1;
        } else {
            list[at..size].rotate_right(1);
        }
    }
    list[size..].fill(0);
    marks.fill(0);
    Ok(Answer::new(0, size as u32, 0))
}

fn mend<P: Plan>(
    o: u32,
    k: u32,
    words: &[u32],
    kept: &mut [u32],
    dropped: &mut [u32],
    marks: &mut [u8],
) -> Answer {
    given(mend_plain::<P>(o, k, words, kept, dropped, marks))
}

fn mend_plain<P: Plan>(
    o: u32,
    k: u32,
    words: &[u32],
    kept: &mut [u32],
    dropped: &mut [u32],
    marks: &mut [u8],
) -> Outcome {
    let Net { objects, nodes, .. } = Net::checked(o, k, words, PLAIN, 1)?;
    let marks = match marks.get_mut(..nodes) {
        Some(marks) => marks,
        None => return refused(5),
    };
    let (mut keeps, mut drops) = (0, 0);
    let enough = kept.len() >= words.len() && dropped.len() / 3 >= words.len();
    for &word in words.iter().filter(|_| enough) {
        // The word is tried behind those kept, on a place that gets back what it held where the word is dropped.
        let held = std::mem::replace(&mut kept[keeps], word);
        let net = Net {
            objects,
            nodes,
            words: &kept[..keeps + 1],
            set: PLAIN,
        };
        match net.clash_by::<P>(word, marks) {
            None => keeps += 1,
            Some((x, y)) => {
                kept[keeps] = held;
                dropped[3 * drops..3 * drops + 3].copy_from_slice(&[word, x as u32, y as u32]);
                drops += 1;
            }
        }
    }
    marks.fill(0);
    Ok(match enough {
        true => Answer::new(0, keeps as u32, drops as u32),
        false => Answer::new(8, words.len() as u32, 0),
    })
}

/// The words of a sorted list, each once, into its front: how many they are.
fn remove_repeats(list: &mut [u32]) -> usize {
    let mut size = 0;
    for at in 0..list.len() {
        if size == 0 || list[at] != list[size - 1] {
            list[size] = list[at];
            size += 1;
        }
    }
    size
}

#[allow(clippy::too_many_arguments)]
fn reason(
    o: u32,
    k: u32,
    words: &[u32],
    set: u32,
    x: u32,
    y: u32,
    sign: u32,
    scratch: &mut [u16],
    list: &mut [u16],
) -> Answer {
    on_net(o, k, words, set, |net| {
        let (x, y) = net.statement(x, y, sign)?;
        let distances = net.places(2, scratch)?;
        net.find_distances(y, sign, distances);
        if distances[x] == NO_WAY {
            return refused(7);
        }
        let size = 3 + distances[x] as usize;
        if list.len() < size {
            return Ok(Answer::new(8, size as u32, 0));
        }
        net.write_reason(x, sign, distances, &mut list[..size]);
        Ok(Answer::new(0, size as u32, 0))
    })
}

#[allow(clippy::too_many_arguments)]
fn reason_check(
    o: u32,
    k: u32,
    words: &[u32],
    set: u32,
    x: u32,
    y: u32,
    sign: u32,
    list: &[u16],
) -> Answer {
    on_net(o, k, words, set, |net| {
        let (x, y) = net.statement(x, y, sign)?;
        let holds = net.is_path(x, y, sign, list);
        Ok(Answer::new(0, holds as u32, 0))
    })
}

/// A net that passed numbers 1, 2, 15 and 3, or 1 to 3 where its words are plain.
struct Net<'a> {
    objects: usize,
    nodes: usize,
    words: &'a [u32],
    set: u32,
}

impl<'a> Net<'a> {
    /// The net, if its words have one of the first so many origins. One origin means that they are plain: then all bits above
    /// the head are the tail's.
    fn checked(
        o: u32,
        k: u32,
        words: &'a [u32],
        set: u32,
        origins: u32,
    ) -> Result<Net<'a>, Answer> {
        let objects = o as usize;
        let nodes = objects + k as usize;
        if nodes > NODE_LIMIT {
            return refused(1);
        }
        if words.len() > WORD_LIMIT {
            return refused(2);
        }
        if set > ALL_ORIGINS {
            return refused(15);
        }
        let known = |word: u32| origin_of(word) < origins;
        let cause = |word: u32| {
            if !known(word) && origins > 1 {
                CAUSE_ORIGIN
            } else if !known(word) || tail_of(word) >= nodes {
                CAUSE_TAIL
            } else {
                CAUSE_HEAD
            }
        };
        let legal = |word: u32| {
            known(word) && tail_of(word) < nodes && (objects..nodes).contains(&head_of(word))
        };
        match words.iter().position(|&word| !legal(word)) {
            Some(index) => Err(Answer::new(3, index as u32, cause(words[index]))),
            None => Ok(Net {
                objects,
                nodes,
                words,
                set,
            }),
        }
    }

    fn is_kind(&self, y: usize) -> bool {
        (self.objects..self.nodes).contains(&y)
    }

    /// A node, or number 4.
    fn node(&self, x: u32) -> Result<usize, Answer> {
        if (x as usize) < self.nodes {
            Ok(x as usize)
        } else {
            refused(4)
        }
    }

    /// A kind, or number 4.
    fn kind(&self, y: u32) -> Result<usize, Answer> {
        if self.is_kind(y as usize) {
            Ok(y as usize)
        } else {
            refused(4)
        }
    }

    /// The subject and the kind of a statement, or number 4.
    fn statement(&self, x: u32, y: u32, sign: u32) -> Result<(usize, usize), Answer> {
        if sign > 1 {
            return refused(4);
        }
        Ok((self.node(x)?, self.kind(y)?))
    }

    /// The part of a lent buffer that has `each` places for every node, or number 5.
    fn places<'b, T>(&self, each: usize, buffer: &'b mut [T]) -> Result<&'b mut [T], Answer> {
        match buffer.get_mut(..each * self.nodes) {
            Some(places) => Ok(places),
            None => refused(5),
        }
    }

    /// The parts of two lent buffers that are the rows, or number 5.
    fn rows<'b>(
        &self,
        yes: &'b mut [u64],
        no: &'b mut [u64],
    ) -> Result<(&'b mut [u64], &'b mut [u64]), Answer> {
        let each = row_size(self.nodes);
        Ok((self.places(each, yes)?, self.places(each, no)?))
    }

    /// The chosen links: tail, head and sign of each.
    fn links(&self) -> impl Iterator<Item = (usize, usize, u32)> + 'a {
        let set = self.set;
        let chosen = self.words.iter().filter(move |&&word| is_chosen(set, word));
        chosen.map(|&word| (tail_of(word), head_of(word), word % 2))
    }

    /// Rounds of the scan from `x` until one sets nothing: whether that was within the budget, and how many were run.
    fn scan<P: Plan>(&self, x: usize, budget: u32, marks: &mut [u8]) -> (bool, u32) {
        marks.fill(0);
        marks[x] = T | U;
        P::run(self.words, self.set, budget, marks)
    }

    /// Whether the net supports what a word says: the whole scan from its tail, read at its head.
    fn supports<P: Plan>(&self, word: u32, marks: &mut [u8]) -> bool {
        let wanted = if word % 2 == 0 { U } else { F };
        self.scan_whole::<P>(tail_of(word), marks);
        marks[head_of(word)] & wanted != 0
    }

    /// The smallest clash of a net that has none without the word: one scan with T on its tail, and U or F on its head, leaves T
    /// and F exactly on the nodes that clash, and a scan from the smallest of them shows its kinds.
    fn clash_by<P: Plan>(&self, word: u32, marks: &mut [u8]) -> Option<(usize, usize)> {
        marks.fill(0);
        marks[tail_of(word)] |= T;
        marks[head_of(word)] |= if word % 2 == 0 { U } else { F };
        P::run(self.words, self.set, u32::MAX, marks);
        let x = marks.iter().position(|byte| byte & (T | F) == T | F)?;
        self.scan_whole::<P>(x, marks);
        let y = marks[self.objects..]
            .iter()
            .position(|byte| byte & (U | F) == U | F);
        Some((x, self.objects + y.expect("the node clashes at some kind")))
    }

    /// The scan with a budget that no net spends.
    fn scan_whole<P: Plan>(&self, x: usize, marks: &mut [u8]) -> u32 {
        let (ended, count) = self.scan::<P>(x, 3 * self.nodes as u32 - 1, marks);
        assert!(ended, "a scan takes at most 3N - 1 rounds");
        count
    }

    /// How many statements the net supports.
    fn count_supported<P: Plan>(&self, marks: &mut [u8]) -> usize {
        let mut size = 0;
        for x in 0..self.nodes {
            self.scan_whole::<P>(x, marks);
            let kinds = marks[self.objects..].iter();
            size += kinds
                .map(|byte| (byte & (U | F)).count_ones() as usize)
                .sum::<usize>();
        }
        size
    }

    /// How many they can be: a list of as many places is written without counting them first.
    fn most_words(&self) -> usize {
        2 * self.nodes * (self.nodes - self.objects)
    }

    /// Their words into the front of the list, ascending: how many.
    fn write_supported<P: Plan>(&self, marks: &mut [u8], list: &mut [u32]) -> usize {
        let mut size = 0;
        let mut write = |word: usize| {
            list[size] = word as u32;
            size += 1;
        };
        for x in 0..self.nodes {
            self.scan_whole::<P>(x, marks);
            for y in self.objects..self.nodes {
                if marks[y] & U != 0 {
                    write(x * 2048 + y * 2);
                }
                if marks[y] & F != 0 {
                    write(x * 2048 + y * 2 + 1);
                }
            }
        }
        size
    }

    /// The moves that a word, if it is chosen, gives a path of the sign asked. A node of the first part is the state of its
    /// own number, a node of the second part stands N further on.
    #[inline(always)]
    fn moves(&self, sign: u32, word: u32, mut each: impl FnMut(usize, usize)) {
        if !is_chosen(self.set, word) {
            return;
        }
        let (tail, head) = (tail_of(word), head_of(word));
        match (sign, word % 2) {
            (0, 0) => each(tail, head),
            (0, _) => {}
            (_, 0) => {
                each(tail, head);
                each(self.nodes + head, self.nodes + tail);
            }
            _ => {
                each(tail, self.nodes + head);
                each(head, self.nodes + tail);
            }
        }
    }

    /// Whether a list is a path from `x` to `y` of the sign asked, with nothing after it.
    fn is_path(&self, x: usize, y: usize, sign: u32, list: &[u16]) -> bool {
        let (first, second, path) = match list {
            [first, second, path @ ..] => (first, second, path),
            _ => return false,
        };
        let (first, second) = (*first as usize, *second as usize);
        first > 0
            && first + second == path.len()
            && (second > 0) == (sign == 1)
            && path[0] as usize == x
            && path[path.len() - 1] as usize == y
            && path
                .windows(2)
                .enumerate()
                .all(|(at, step)| self.is_step(first, at + 1, step[0] as usize, step[1] as usize))
    }

    /// Whether the step from the `reached`-th node of a path is a link, or a repeat of a kind that is not the crossing.
    fn is_step(&self, first: usize, reached: usize, from: usize, to: usize) -> bool {
        let says = |tail: usize, head: usize, sign: usize| {
            let wanted = word(tail, head, sign);
            move |word: u32| plain_of(word) == wanted
        };
        if reached == first {
            let (there, back) = (says(from, to, 1), says(to, from, 1));
            return self.has_link(|word| there(word) || back(word));
        }
        let link = if reached < first {
            says(from, to, 0)
        } else {
            says(to, from, 0)
        };
        (from == to && self.is_kind(from)) || self.has_link(link)
    }

    /// Whether a chosen word passes a test.
    fn has_link(&self, test: impl Fn(u32) -> bool) -> bool {
        self.words
            .iter()
            .any(|&word| is_chosen(self.set, word) && test(word))
    }

    /// The fewest links from each state to the end of a path to `y`, level by level.
    fn find_distances(&self, y: usize, sign: u32, distances: &mut [u16]) {
        distances.fill(NO_WAY);
        distances[if sign == 0 { y } else { self.nodes + y }] = 0;
        for level in 0.. {
            let mut reached = false;
            for &word in self.words {
                self.moves(sign, word, |from, to| {
                    if distances[to] == level && distances[from] == NO_WAY {
                        distances[from] = level + 1;
                        reached = true;
                    }
                });
            }
            if !reached {
                return;
            }
        }
    }

    /// The smallest state, one link nearer to the end, that a move leads to from `state`.
    fn next_state(&self, sign: u32, distances: &[u16], state: usize) -> usize {
        let nearer = distances[state] - 1;
        let mut best = usize::MAX;
        for &word in self.words {
            self.moves(sign, word, |from, to| {
                if from == state && to < best && distances[to] == nearer {
                    best = to;
                }
            });
        }
        best
    }

    /// The path from `x` that the distances lead along, into the whole list.
    fn write_reason(&self, x: usize, sign: u32, distances: &[u16], list: &mut [u16]) {
        list[..3].copy_from_slice(&[1, 0, x as u16]);
        let mut state = x;
        for at in 3..list.len() {
            state = self.next_state(sign, distances, state);
            list[state / self.nodes] += 1;
            list[at] = (state % self.nodes) as u16;
        }
    }
}

/// What a kind's byte answers about the start of the scan: U is yes, F is no.
fn answer(byte: u8) -> u32 {
    (byte & U != 0) as u32 + 2 * (byte & F != 0) as u32
}
