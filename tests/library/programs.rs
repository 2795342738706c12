//! Programs for the marker unit: the merged scan, the report's upscan, loops of any commands, and programs with something wrong; and budgets around what
//! they take.

use crate::call::run;
use crate::case::{widened, Case};
use crate::fields::Field;
use crate::markers::{clear, link, set, END, LOOP};
use crate::nets::Net;
use crate::random::Random;

const ALL_MARKERS: u32 = 255;
const T: u32 = 0;
const F: u32 = 1;
const U: u32 = 2;

/// Puts a program into the case, and a budget around the commands that it runs. An endless loop gets some hundred, and fewer where there are many words.
pub fn draw_program(random: &mut Random, net: &Net, case: &mut Case) {
    let mut program = match random.below(100) {
        0..=24 => merged_scan(random.below(net.nodes()) as u32),
        25..=34 => upscan(random.below(net.nodes()) as u32),
        35..=38 => [LOOP, END].repeat(random.below(3)),
        _ => any_program(random, net),
    };
    if random.chance(25) {
        spoil(random, net, &mut program);
    }
    case.set(Field::Program, widened(&program));
    let most = (4_000_000 / (net.words.len() + 1)).clamp(12, 400) as u32;
    case.set(Field::Commands, widened(&[most]));
    let answer = run(case, 0)
        .expect("the archive keeps to its memory")
        .answer;
    let budget = match answer.number {
        0 => draw_budget(random, answer.first, &[most, u32::MAX]),
        6 => draw_budget(random, most - 1, &[]),
        _ => random.pick(&[0, 1, 50, u32::MAX]),
    };
    case.set(Field::Commands, widened(&[budget]));
}

/// A number up to one more than the count, or one of the others.
fn draw_budget(random: &mut Random, count: u32, others: &[u32]) -> u32 {
    let part = random.below(count as usize + 1) as u32;
    let mut budgets = vec![0, 1, count, count, count + 1, count.saturating_sub(1), part];
    budgets.extend(others);
    random.pick(&budgets)
}

/// The written program for the merged scan from a node.
pub fn merged_scan(x: u32) -> Vec<u32> {
    vec![
        clear(ALL_MARKERS),
        set(T, x),
        set(U, x),
        LOOP,
        link(T, T, true, 0),
        link(U, U, false, 0),
        link(F, F, true, 0),
        link(U, F, false, 1),
        link(U, F, true, 1),
        END,
    ]
}

fn upscan(x: u32) -> Vec<u32> {
    vec![
        clear(1 << T | 1 << F),
        set(T, x),
        LOOP,
        link(T, T, false, 0),
        link(F, F, true, 0),
        link(T, F, false, 1),
        link(T, F, true, 1),
        END,
    ]
}

/// Some commands and some loops, over few markers or over all of them.
fn any_program(random: &mut Random, net: &Net) -> Vec<u32> {
    let markers = random.pick(&[1, 2, 3, 8]);
    let mut program = Vec::new();
    for _ in 0..random.within(1, 4) {
        let size = random.below(5);
        let commands = (0..size).map(|_| draw_command(random, net, markers));
        let commands: Vec<u32> = commands.collect();
        if random.chance(60) {
            program.push(LOOP);
            program.extend(commands);
            program.push(END);
        } else {
            program.extend(commands);
        }
    }
    program
}

fn draw_command(random: &mut Random, net: &Net, markers: usize) -> u32 {
    let marker = random.below(markers) as u32;
    let other = random.below(markers) as u32;
    match random.below(100) {
        0..=6 => clear(random.within(1, 255) as u32),
        7..=11 => clear(1 << marker),
        12..=29 => set(marker, random.below(net.nodes()) as u32),
        _ => link(marker, other, random.chance(50), random.below(2) as u32),
    }
}

/// One thing wrong, or perhaps wrong, with a program.
fn spoil(random: &mut Random, net: &Net, program: &mut Vec<u32>) {
    let at = random.below(program.len() + 1);
    let any = random.next() as u32;
    let nodes = net.nodes() as u32;
    let wrong = random.pick(&[
        LOOP,
        LOOP,
        END,
        END,
        LOOP + 1,
        END + 1,
        END + (1 << 24),
        clear(0),
        clear(256),
        set(8, 0),
        set(0, nodes),
        set(7, 65_535),
        link(8, 0, false, 0),
        link(0, 8, false, 0),
        link(0, 0, true, 2),
        any,
    ]);
    match random.below(4) {
        0 if at < program.len() => drop(program.remove(at)),
        1 if at < program.len() => program[at] = wrong,
        _ => program.insert(at, wrong),
    }
}
