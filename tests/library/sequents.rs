//! The rules of the report's section 4 as they stand there: a proof is read from its list by trying its steps, each with all that it may use in a set of
//! its own.

use std::collections::BTreeSet;

use crate::nets::{head_of, word};

const DEEPEST: usize = 255;

/// A step: its rule, the individual that it is about, and its link.
pub type Step = [u32; 3];

/// The list of a proof: the branches that its steps have, and the steps. Where the steps are none of a proof the contents may be any.
pub fn listed(steps: &[Step]) -> Vec<u32> {
    let mut branches = vec![(0, steps.len())];
    // Of each left rule whose left premise is not at its end: its branch, and how many premises are open below it.
    let mut left: Vec<(usize, usize)> = Vec::new();
    let mut open: usize = 1;
    for (i, [rule, _, _]) in steps.iter().enumerate() {
        match rule {
            4..=7 => {
                branches.push((i + 1, 0));
                left.push((branches.len() - 1, open));
                open += 1;
            }
            2 | 3 => (),
            _ => open = open.saturating_sub(1),
        }
        while left.last().map_or(false, |&(_, below)| open <= below) {
            if let Some((branch, _)) = left.pop() {
                branches[branch].1 = i + 1 - branches[branch].0;
            }
        }
    }
    let base = 1 + 2 * branches.len();
    let mut list = vec![branches.len() as u32];
    for (first, size) in branches {
        list.extend([(base + 3 * first) as u32, size as u32]);
    }
    list.extend(steps.iter().flatten());
    list
}

/// The steps of a list, where it has any.
pub fn steps_of(list: &[u32]) -> Vec<Step> {
    let base = list
        .first()
        .map_or(0, |&branches| 1 + 2 * branches as usize);
    let steps = list.get(base..).unwrap_or(&[]).chunks_exact(3);
    steps.map(|step| [step[0], step[1], step[2]]).collect()
}

/// The number that a check gives and its first value, for a list that is to prove a statement from a net's plain links.
pub fn verdict(
    o: usize,
    nodes: usize,
    links: &BTreeSet<u32>,
    goal: u32,
    list: &[u32],
) -> (u32, u32) {
    let steps = steps_of(list);
    let mut reader = Reader {
        o,
        nodes,
        steps: &steps,
        read: 0,
    };
    let shown = match list.first() {
        Some(&branches) if branches > 0 => reader.sequent(links, goal, 1),
        _ => Err(None),
    };
    match shown {
        Ok(()) if listed(&steps[..reader.read]) == list => (0, 0),
        Err(Some(step)) => (12, step as u32),
        _ => (12, u32::MAX),
    }
}

struct Reader<'a> {
    o: usize,
    nodes: usize,
    steps: &'a [Step],
    read: usize,
}

impl Reader<'_> {
    fn is_individual(&self, node: usize) -> bool {
        node < self.o || node == self.nodes
    }

    fn is_kind(&self, node: usize) -> bool {
        (self.o..self.nodes).contains(&node)
    }

    /// Reads the proof of a statement from what is given. The step at fault, if it is one, is the error.
    fn sequent(
        &mut self,
        given: &BTreeSet<u32>,
        goal: u32,
        depth: usize,
    ) -> Result<(), Option<usize>> {
        let at = self.read;
        let [rule, object, link] = *self.steps.get(at).ok_or(None)?;
        self.read += 1;
        let wrong = Err(Some(at));
        let (x, y, sign) = (goal as usize / 2048, head_of(goal), goal as usize % 2);
        let (a, p, q) = (object as usize, link as usize / 2048, head_of(link));
        if depth > DEEPEST {
            return wrong;
        }
        let with = |more: u32| {
            given
                .iter()
                .copied()
                .chain([more])
                .collect::<BTreeSet<u32>>()
        };
        let (left, added) = match rule {
            0 | 1 => {
                let fits = link == goal && a == x && rule as usize == sign;
                return match fits && self.is_individual(x) && given.contains(&goal) {
                    true => Ok(()),
                    false => wrong,
                };
            }
            2 | 3 => {
                let fits = link == goal && a == self.nodes && rule as usize == 2 + sign;
                let fresh = given.iter().all(|&it| it as usize / 2048 != self.nodes);
                if !(fits && self.is_kind(x) && fresh) {
                    return wrong;
                }
                return self.sequent(&with(word(a, x, 0)), word(a, y, sign), depth + 1);
            }
            4 => (word(a, p, 0), word(a, q, 0)),
            5 => (word(a, q, 1), word(a, p, 1)),
            6 => (word(a, p, 0), word(a, q, 1)),
            7 => (word(a, q, 0), word(a, p, 1)),
            _ => return wrong,
        };
        let of_rule = (link % 2 == 1) == (rule > 5) && self.is_individual(a);
        if !(of_rule && self.is_kind(p) && self.is_kind(q) && given.contains(&link)) {
            return wrong;
        }
        self.sequent(given, left, depth + 1)?;
        self.sequent(&with(added), goal, depth + 1)
    }
}
