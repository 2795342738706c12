//! Scans whose instructions are counted from outside: see `bench/instructions`.
//!
//! `instructions ENGINE NET CALLS` makes as many scans of one of the three nets by the engine `proved`, `plain` or `first`, and prints the net's name.

#[allow(dead_code)]
mod engine;
mod marks;
#[path = "../tests/library/nets.rs"]
#[allow(dead_code)]
mod nets;
#[allow(dead_code)]
mod plain;
mod proved;
#[path = "../tests/library/random.rs"]
#[allow(dead_code)]
mod random;
#[allow(dead_code)]
mod rows;
#[allow(dead_code)]
mod shapes;

use engine::Engine;
use nets::{Net, ALL_ORIGINS};
use shapes::{three_shapes, Shape};

fn main() {
    let asked: Vec<String> = std::env::args().skip(1).collect();
    assert!(asked.len() == 3, "instructions ENGINE NET CALLS");
    let engine = engine_of(&asked[0]);
    let shape = &three_shapes()[asked[1].parse::<usize>().expect("a net is 0, 1 or 2")];
    let mut marks = vec![0; shape.net.nodes()];
    for _ in 0..asked[2].parse().expect("a number of calls") {
        scan(&engine, shape, &mut marks);
    }
    println!("{}", shape.name);
}

fn engine_of(name: &str) -> Engine {
    match name {
        "proved" => proved::ENGINE,
        "plain" => plain::ENGINE,
        "first" => plain::BASE,
        _ => panic!("no engine {}", name),
    }
}

fn scan(engine: &Engine, shape: &Shape, marks: &mut [u8]) {
    let Net { o, k, words } = &shape.net;
    let given = (engine.scan)(*o, *k, words, ALL_ORIGINS, shape.x, u32::MAX, marks);
    assert!(given.number == 0, "refused on {}", shape.name);
}
