//! Random nets: from none and a handful of nodes to the limits, sound and damaged, with links from all origins.

use crate::random::Random;

pub const NODE_LIMIT: usize = 1024;
pub const WORD_LIMIT: usize = 2_097_152;

/// A word is its origin times this number, and its plain word.
pub const ORIGIN: u32 = 2_097_152;
pub const ORIGINS: usize = 4;
pub const ALL_ORIGINS: u32 = 15;

/// A net as a caller hands it over; nothing says that it is legal.
#[derive(Clone)]
pub struct Net {
    pub o: u32,
    pub k: u32,
    pub words: Vec<u32>,
}

impl Net {
    /// The number of nodes, where the net is not too large.
    pub fn nodes(&self) -> usize {
        (self.o as usize + self.k as usize).min(NODE_LIMIT)
    }

    /// The bytes of its valuation's table, where the net is not too large.
    pub fn table_size(&self) -> usize {
        self.nodes() * (self.k as usize).min(NODE_LIMIT)
    }

    /// The words of its rows of bits, where the net is not too large.
    pub fn rows_size(&self) -> usize {
        self.nodes() * row_size(self.nodes())
    }

    /// A node that a chosen link of the sign leads to from a node: at the link's head, or at its tail where `back` holds.
    pub fn link_at(
        &self,
        random: &mut Random,
        set: u32,
        node: u32,
        back: bool,
        sign: u32,
    ) -> Option<u32> {
        let ends = |word: u32| {
            let (tail, head) = (tail_of(word), head_of(word));
            if back {
                (head, tail)
            } else {
                (tail, head)
            }
        };
        let near =
            |&word: &u32| is_chosen(set, word) && ends(word).0 == node as usize && word % 2 == sign;
        let found: Vec<u32> = self.words.iter().copied().filter(near).collect();
        if found.is_empty() {
            return None;
        }
        Some(ends(random.pick(&found)).1 as u32)
    }
}

/// The words of one row of bits.
pub fn row_size(nodes: usize) -> usize {
    (nodes + 63) / 64
}

/// A word's origin.
pub fn origin_of(word: u32) -> u32 {
    word / ORIGIN
}

/// A word without its origin.
pub fn plain(word: u32) -> u32 {
    word % ORIGIN
}

/// Whether the origin of a legal word is in the set.
pub fn is_chosen(set: u32, word: u32) -> bool {
    set.wrapping_shr(origin_of(word)) & 1 != 0
}

/// A word's tail.
pub fn tail_of(word: u32) -> usize {
    (plain(word) / 2048) as usize
}

/// A word's head.
pub fn head_of(word: u32) -> usize {
    (word / 2 % 1024) as usize
}

/// The plain word of a link.
pub fn word(tail: usize, head: usize, sign: usize) -> u32 {
    (tail * 2048 + head * 2 + sign) as u32
}

/// `size` random links of origin 0, `against` in a hundred of them "is not".
pub fn random_net(random: &mut Random, o: usize, k: usize, size: usize, against: usize) -> Net {
    let mut words = Vec::with_capacity(size);
    if k > 0 {
        for _ in 0..size {
            let sign = random.chance(against) as usize;
            words.push(word(random.below(o + k), o + random.below(k), sign));
        }
    }
    Net {
        o: o as u32,
        k: k as u32,
        words,
    }
}

/// Node 0 to 1 to 2 and so on, with some "is not" links across, the words in any order. At most one object. Where the
/// last kind is said not to be itself, reasons go up the whole chain and down again: the longest that there are.
pub fn chain_net(random: &mut Random, o: usize, k: usize) -> Net {
    let nodes = o + k;
    let mut words: Vec<u32> = (1..nodes).map(|v| word(v - 1, v, 0)).collect();
    for _ in 0..random.below(4) {
        words.push(word(random.below(nodes), o + random.below(k), 1));
    }
    if random.chance(30) {
        words.push(word(nodes - 1, nodes - 1, 1));
    }
    for i in 0..words.len() {
        words.swap(i, random.below(i + 1));
    }
    Net {
        o: o as u32,
        k: k as u32,
        words,
    }
}

/// The next net of a run: most are small, so that every corner of a small net is met many times.
pub fn draw_net(random: &mut Random) -> Net {
    let mut net = draw_shape(random);
    if random.chance(70) {
        for word in &mut net.words {
            *word = plain(*word) + draw_origin(random);
        }
    }
    if random.chance(30) {
        repeat_words(random, &mut net);
    }
    if random.chance(12) {
        damage(random, &mut net);
    }
    net
}

/// What one of the origins adds to a plain word.
pub fn draw_origin(random: &mut Random) -> u32 {
    random.below(ORIGINS) as u32 * ORIGIN
}

/// A net without repeated and illegal words, though it may have too many nodes.
fn draw_shape(random: &mut Random) -> Net {
    let share = random.below(1000);
    let (o, k, size) = match share {
        0..=539 => (random.below(4), random.below(5), random.below(13)),
        540..=834 => (random.below(9), random.within(1, 16), random.below(41)),
        835..=924 => (random.below(40), random.within(1, 80), random.below(400)),
        925..=964 => (random.below(2), random.within(1, 60), 0),
        965..=974 => (random.below(1023), 0, random.below(4000)),
        975..=978 => (random.below(2), random.within(200, 1023), 0),
        _ => return too_large_net(random),
    };
    match share {
        0..=539 => {
            let against = random.pick(&[20, 40, 60]);
            random_net(random, o, k, size, against)
        }
        925..=964 | 975..=978 => chain_net(random, o, k),
        965..=974 => random_net(random, o, 1024 - o, size, 10),
        _ => random_net(random, o, k, size, 25),
    }
}

/// A net of too many nodes, with any words.
fn too_large_net(random: &mut Random) -> Net {
    let (o, k) = over_limit(random);
    let size = random.below(6);
    let words = (0..size).map(|_| random.next() as u32).collect();
    Net { o, k, words }
}

/// Numbers of objects and kinds that add up to more than 1,024, some of them only if the sum does not wrap.
fn over_limit(random: &mut Random) -> (u32, u32) {
    let any = random.next() as u32;
    random.pick(&[
        (1025, 0),
        (0, 1025),
        (1024, 1),
        (1, 1024),
        (u32::MAX, 1),
        (1, u32::MAX),
        (u32::MAX, u32::MAX),
        (1 << 31, 1 << 31),
        (any | 2048, 3),
        (3, any | 2048),
    ])
}

/// Some words once more, of the same origin or of another.
fn repeat_words(random: &mut Random, net: &mut Net) {
    if net.words.is_empty() {
        return;
    }
    for _ in 0..random.within(1, 3) {
        let again = random.pick(&net.words);
        let other = plain(again) + draw_origin(random);
        let at = random.below(net.words.len() + 1);
        net.words.insert(at, random.pick(&[again, other]));
    }
}

/// One or two illegal words somewhere.
fn damage(random: &mut Random, net: &mut Net) {
    for _ in 0..random.within(1, 2) {
        let bad = draw_illegal(random, net);
        let at = random.below(net.words.len() + 1);
        net.words.insert(at, bad);
    }
}

/// A word that is illegal where the net is not of the largest, or any word: an object as its head, a head or a tail of exactly N
/// or of more, both ends wrong, each with one of the origins; an origin above those, with ends that are right or wrong.
pub fn draw_illegal(random: &mut Random, net: &Net) -> u32 {
    let (o, nodes) = (net.o as usize, net.nodes());
    let (first_beyond, any_object) = (nodes.min(1023), random.below(o.min(1024)));
    let beyond = random.within(first_beyond, 1023);
    let sign = random.below(2);
    let tail = random.below(nodes);
    let kind = (o + random.below(nodes.saturating_sub(o))).min(1023);
    let far = random.within(ORIGINS, 2047) as u32;
    let wrong_origin = random.pick(&[ORIGINS as u32, far]) * ORIGIN;
    match random.below(10) {
        0 => word(tail, any_object, sign) + draw_origin(random),
        1 => word(tail, first_beyond, sign) + draw_origin(random),
        2 => word(tail, beyond, sign) + draw_origin(random),
        3 => word(first_beyond, kind, sign) + draw_origin(random),
        4 => word(beyond, kind, sign) + draw_origin(random),
        5 => word(first_beyond, any_object, sign) + draw_origin(random),
        6 => word(tail, kind, sign) + wrong_origin,
        7 => word(first_beyond, any_object, sign) + wrong_origin,
        8 => word(nodes, kind, sign),
        _ => random.next() as u32,
    }
}
