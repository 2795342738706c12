//! Derivations by the rules (3.1) to (3.5) as they stand in the request: each line is a chosen link, or one rule gives it from lines above it.

use crate::nets::{head_of, is_chosen, plain};

/// A line: its statement, its rule or 0 for a link, and the link's index or the lines that the rule is used on.
pub type Line = [u32; 4];

/// The ends and the sign of what a line says.
pub fn said_by(line: &Line) -> (usize, usize, u32) {
    (line[0] as usize / 2048, head_of(line[0]), line[0] % 2)
}

/// The whole lines of a list.
pub fn lines_of(list: &[u32]) -> Vec<Line> {
    let lines = list.chunks_exact(4);
    lines.map(|it| [it[0], it[1], it[2], it[3]]).collect()
}

/// Whether a list derives a statement from the words that a set of origins chooses.
pub fn derives(o: usize, nodes: usize, words: &[u32], set: u32, goal: u32, list: &[u32]) -> bool {
    let lines = lines_of(list);
    let net = Given {
        o,
        nodes,
        words,
        set,
    };
    list.len() % 4 == 0
        && lines.last().map_or(false, |line| line[0] == goal)
        && (0..lines.len()).all(|n| net.gives(&lines[..n], &lines[n]))
}

struct Given<'a> {
    o: usize,
    nodes: usize,
    words: &'a [u32],
    set: u32,
}

impl Given<'_> {
    fn is_kind(&self, node: usize) -> bool {
        (self.o..self.nodes).contains(&node)
    }

    /// Whether the line is right, given those above it. Numbers that it does not use are 0.
    fn gives(&self, above: &[Line], line: &Line) -> bool {
        let (x, y, sign) = said_by(line);
        let [said, rule, i, j] = *line;
        let first = above.get(i as usize).map(said_by);
        let second = above.get(j as usize).map(said_by);
        match (rule, first, second) {
            (0, _, _) => {
                let link = self.words.get(i as usize);
                let says = |&it: &u32| is_chosen(self.set, it) && plain(it) == said;
                j == 0 && link.map_or(false, says)
            }
            (1, _, _) => (i, j) == (0, 0) && sign == 0 && x == y && self.is_kind(x),
            (2, Some((p, q, 0)), Some((r, s, 0))) => {
                sign == 0 && (p, s) == (x, y) && q == r && self.is_kind(q) && self.is_kind(y)
            }
            (3, Some((p, q, 1)), _) => {
                j == 0 && sign == 1 && (q, p) == (x, y) && self.is_kind(p) && self.is_kind(q)
            }
            (4, Some((p, q, 0)), Some((r, s, 1))) => {
                sign == 1 && (p, s) == (x, y) && q == r && self.is_kind(q) && self.is_kind(y)
            }
            (5, Some((p, q, 0)), Some((a, r, 1))) => {
                let kinds = self.is_kind(p) && self.is_kind(q);
                sign == 1 && (a, p) == (x, y) && q == r && a < self.o && kinds
            }
            _ => false,
        }
    }
}
