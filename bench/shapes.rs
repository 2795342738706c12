//! The nets that are timed, and on which instructions are counted. Their links have all origins by turns.

use crate::nets::{head_of, random_net, tail_of, word, Net, ORIGIN, ORIGINS, WORD_LIMIT};
use crate::random::Random;

const SEED: u64 = 1;

/// A net and the statement asked of it.
pub struct Shape {
    pub name: String,
    pub net: Net,
    pub x: u32,
    pub y: u32,
    pub sign: u32,
}

/// Many nodes with some links each, a long way, and many links.
pub fn three_shapes() -> [Shape; 3] {
    [
        random_shape(100, 800, 8_000),
        chain_shape(900),
        random_shape(24, 1000, 200_000),
    ]
}

pub fn random_shape(o: usize, k: usize, size: usize) -> Shape {
    let net = of_all_origins(random_net(
        &mut Random::new(SEED, size as u64),
        o,
        k,
        size,
        25,
    ));
    let (x, y) = (tail_of(net.words[0]) as u32, head_of(net.words[1]) as u32);
    Shape {
        name: format!("{} nodes, {} random links", o + k, size),
        net,
        x,
        y,
        sign: 1,
    }
}

/// Random links, repeated until there are as many words as are allowed.
pub fn repeated_shape(o: usize, k: usize, size: usize) -> Shape {
    let mut shape = random_shape(o, k, size);
    let words = &mut shape.net.words;
    let mut random = Random::new(SEED, WORD_LIMIT as u64);
    while words.len() < WORD_LIMIT {
        words.push(words[random.below(size)]);
    }
    shape.name = format!("{}, repeated to {} words", shape.name, WORD_LIMIT);
    shape
}

/// Kinds in two halves, by even and odd numbers: "is" goes upward inside a half, "is not" from one half to the other. The last
/// links, which somebody has added, say "is" across, and most of them clash.
pub fn mended_shape(o: usize, k: usize, size: usize, added: usize) -> Shape {
    let mut random = Random::new(SEED, added as u64);
    let nodes = o + k;
    let mut words = Vec::with_capacity(size);
    while words.len() < size {
        let (tail, head) = (random.below(nodes), o + random.below(k));
        let across = (tail + head) % 2 == 1;
        let is_added = words.len() >= size - added;
        if tail < head && across == is_added {
            words.push(word(tail, head, 0));
        } else if across && !is_added && random.chance(30) {
            words.push(word(tail, head, 1));
        }
    }
    Shape {
        name: format!("{} nodes, {} links, the last {} across", nodes, size, added),
        x: tail_of(words[0]) as u32,
        y: head_of(words[0]) as u32,
        net: of_all_origins(Net {
            o: o as u32,
            k: k as u32,
            words,
        }),
        sign: 0,
    }
}

pub fn chain_shape(nodes: usize) -> Shape {
    let words = (1..nodes).map(|v| word(v - 1, v, 0)).collect();
    let net = of_all_origins(Net {
        o: 1,
        k: nodes as u32 - 1,
        words,
    });
    Shape {
        name: format!("a chain of {} nodes", nodes),
        net,
        x: 0,
        y: nodes as u32 - 1,
        sign: 0,
    }
}

/// The net with its plain words given the origins by turns.
fn of_all_origins(mut net: Net) -> Net {
    for (at, word) in net.words.iter_mut().enumerate() {
        *word += (at % ORIGINS) as u32 * ORIGIN;
    }
    net
}
