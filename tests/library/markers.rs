//! The marker unit as the request describes it, each marker a set of nodes: what a program's commands are, and what they leave.

use std::collections::BTreeSet;

use crate::nets::{head_of, tail_of};

pub const LOOP: u32 = 3 << 24;
pub const END: u32 = 4 << 24;

const MARKERS: u32 = 8;

pub fn clear(markers: u32) -> u32 {
    markers
}

pub fn set(marker: u32, node: u32) -> u32 {
    (1 << 24) + (marker << 16) + node
}

/// The link command that tests a marker at the tail and puts one at the head, or the reverse where `back` holds.
pub fn link(tested: u32, put: u32, back: bool, sign: u32) -> u32 {
    (2 << 24) + (tested << 16) + (put << 8) + 2 * back as u32 + sign
}

/// A command that is not at fault by itself.
enum Command {
    Clear(u32),
    Set(usize, usize),
    Link(usize, usize, bool, u32),
    Loop,
    End,
}

/// The command of a word, if it is one over the nodes of a net.
fn read(word: u32, nodes: usize) -> Option<Command> {
    let [low, middle, high, op] = word.to_le_bytes().map(u32::from);
    let node = word as usize % 65_536;
    let command = match op {
        0 if (1..1 << MARKERS).contains(&word) => Command::Clear(word),
        1 if high < MARKERS && node < nodes => Command::Set(high as usize, node),
        2 if high < MARKERS && middle < MARKERS && low < 4 => {
            Command::Link(high as usize, middle as usize, low > 1, low % 2)
        }
        3 if word == LOOP => Command::Loop,
        4 if word == END => Command::End,
        _ => return None,
    };
    Some(command)
}

/// The first place at fault.
fn first_fault(program: &[u32], nodes: usize) -> Option<usize> {
    let mut open = false;
    for (at, &word) in program.iter().enumerate() {
        let sound = match read(word, nodes) {
            None => false,
            Some(Command::Loop) => {
                !std::mem::replace(&mut open, true) && program[at..].contains(&END)
            }
            Some(Command::End) => std::mem::replace(&mut open, false),
            Some(_) => true,
        };
        if !sound {
            return Some(at);
        }
    }
    None
}

struct Machine<'a> {
    links: &'a BTreeSet<u32>,
    holders: Vec<BTreeSet<usize>>,
    count: u32,
    budget: u32,
}

impl Machine<'_> {
    /// Runs commands one after the other. Whether one of them put a marker where it was not; nothing where the budget was spent.
    fn pass(&mut self, commands: &[Command]) -> Option<bool> {
        let mut fresh = false;
        for command in commands {
            if self.count == self.budget {
                return None;
            }
            self.count += 1;
            fresh |= self.run(command);
        }
        Some(fresh)
    }

    /// The bytes of the nodes, and behind them those of the marks before.
    fn marks(&self, nodes: usize, before: &[u64]) -> Vec<u64> {
        let bit = |v: usize, i: usize| (self.holders[i].contains(&v) as u64) << i;
        let byte = |v| (0..MARKERS as usize).map(|i| bit(v, i)).sum::<u64>();
        let mut marks: Vec<u64> = (0..nodes).map(byte).collect();
        marks.extend(&before[nodes..]);
        marks
    }

    /// Whether the command put a marker where it was not.
    fn run(&mut self, command: &Command) -> bool {
        match *command {
            Command::Clear(markers) => {
                let cleared = |marker: &usize| markers >> marker & 1 == 1;
                (0..MARKERS as usize)
                    .filter(cleared)
                    .for_each(|marker| self.holders[marker].clear());
                false
            }
            Command::Set(marker, node) => self.holders[marker].insert(node),
            Command::Link(tested, put, back, sign) => {
                let of_sign = self.links.iter().filter(|&&link| link % 2 == sign);
                let ends = of_sign.map(|&link| match back {
                    true => (head_of(link), tail_of(link)),
                    false => (tail_of(link), head_of(link)),
                });
                let tested = &self.holders[tested];
                let far: Vec<usize> = ends
                    .filter(|(near, _)| tested.contains(near))
                    .map(|(_, far)| far)
                    .collect();
                let before = self.holders[put].len();
                self.holders[put].extend(far);
                self.holders[put].len() > before
            }
            Command::Loop | Command::End => false,
        }
    }
}

/// The number that the unit gives, its first value and the marks of the nodes, for the plain links of a legal net.
pub fn simulated(
    nodes: usize,
    links: &BTreeSet<u32>,
    program: &[u32],
    budget: u32,
    marks: &[u64],
) -> (u32, u32, Vec<u64>) {
    if let Some(place) = first_fault(program, nodes) {
        return (16, place as u32, marks.to_vec());
    }
    let held = |marker: u32| (0..nodes).filter(move |&v| marks[v] >> marker & 1 == 1);
    let mut machine = Machine {
        links,
        holders: (0..MARKERS).map(|marker| held(marker).collect()).collect(),
        count: 0,
        budget,
    };
    let parts = program.split(|&word| word == LOOP || word == END);
    for (part, words) in parts.enumerate() {
        let commands = words.iter().filter_map(|&word| read(word, nodes));
        let commands: Vec<Command> = commands.collect();
        // Loops do not stand in each other, so that every other part is one.
        let repeats = part % 2 == 1;
        loop {
            match machine.pass(&commands) {
                Some(fresh) if fresh && repeats => (),
                Some(_) => break,
                None => return (6, machine.count, machine.marks(nodes, marks)),
            }
        }
    }
    (0, machine.count, machine.marks(nodes, marks))
}
