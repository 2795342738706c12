//! Times the proved engine against the same algorithm in plain Rust, in one process and by turns, and prints Markdown. Scans are timed against
//! the plan of the engine's first version as well.
//! Times are processor time of this process, so that other work on the machine disturbs them little. The links have all origins by
//! turns, and the set lent has them all.
//!
//! `bench [ratios] [TABLE..]`: with `ratios` no times are printed, for a machine on which the code is emulated. The tables are `operations`, `screenful`, `rows`,
//! `compaction`, `mending` and `growth`; without a name all of them are printed.

mod engine;
mod marks;
#[path = "../tests/library/nets.rs"]
#[allow(dead_code)]
mod nets;
mod plain;
mod proved;
#[path = "../tests/library/random.rs"]
mod random;
mod rows;
mod shapes;

use engine::{Answer, Engine};
use nets::{plain as plain_of, Net, ALL_ORIGINS};
use shapes::{chain_shape, mended_shape, random_shape, repeated_shape, three_shapes, Shape};

/// One turn of an engine lasts at least this many seconds, by repeating the call.
const TURN: f64 = 0.002;
/// Turns go on for this many seconds, but at least `FEWEST_TURNS` of them where these do not take too long.
const SPENT: f64 = 1.0;
const TOO_LONG: f64 = 10.0;
const FEWEST_TURNS: usize = 2;
const MOST_TURNS: usize = 40;

#[derive(Clone, Copy)]
enum Operation {
    CheckNet,
    Scan,
    Question,
    Questions,
    SingleQuestions,
    Reason,
    ReasonCheck,
    Completion,
    /// With rows that hold this word everywhere before each call.
    CompletionByRows(u64),
    Clash,
    Compact,
    Mend,
}

const OPERATIONS: [(Operation, &str); 7] = [
    (Operation::CheckNet, "check of the net"),
    (Operation::Scan, "scan"),
    (Operation::Question, "question"),
    (Operation::Reason, "reason"),
    (Operation::ReasonCheck, "reason check"),
    (Operation::Clash, "clash test"),
    (Operation::Completion, "completion"),
];

/// As many questions as a screenful has.
const SCREENFUL: usize = 64;

/// The buffers of one engine.
#[derive(Clone, PartialEq)]
struct Room {
    links: Vec<u32>,
    kept: Vec<u32>,
    dropped: Vec<u32>,
    answers: Vec<u8>,
    marks: Vec<u8>,
    words_list: Vec<u32>,
    yes: Vec<u64>,
    no: Vec<u64>,
    scratch: Vec<u16>,
    reason_list: Vec<u16>,
    path: Vec<u16>,
}

/// The best time of each engine, and the answer that both gave.
struct Measured {
    proved: f64,
    plain: f64,
    answer: Answer,
}

fn main() {
    let asked: Vec<String> = std::env::args().skip(1).collect();
    let ratios = asked.iter().any(|word| word == "ratios");
    let tables: Vec<&String> = asked.iter().filter(|&word| word != "ratios").collect();
    let wanted = |name: &str| tables.is_empty() || tables.iter().any(|table| *table == name);
    if wanted("operations") {
        print_operations(ratios, &three_shapes());
    }
    if wanted("screenful") {
        println!("\n64 questions about one node, in one call and one by one:\n");
        print_screenful(ratios, &random_shape(100, 800, 8_000));
    }
    if wanted("rows") {
        println!("\nCompletion by rows of bits, which the call clears itself; `by size` is the plain program compiled for each size of a row:\n");
        print_rows(ratios, &three_shapes());
        println!("\nThe same against completion by markers:\n");
        print_both_completions(ratios, &random_shape(100, 800, 8_000));
    }
    if wanted("compaction") {
        println!("\nCompaction of a list of plain words, written anew for each call:\n");
        print_compaction(
            ratios,
            &[
                random_shape(100, 800, 8_000),
                repeated_shape(100, 800, 8_000),
            ],
        );
    }
    if wanted("mending") {
        println!("\nMending a net, and a scan of the same net:\n");
        print_mending(ratios, &mended_shape(100, 800, 8_000, 300));
    }
    if wanted("growth") {
        println!("\nHow a scan's time grows with words (random links on 1,024 nodes):\n");
        let sizes = [1_000, 4_000, 16_000, 64_000, 256_000, 1_024_000];
        print_growth(ratios, &sizes.map(|size| random_shape(24, 1000, size)));
        println!("\nHow it grows with depth (a chain, scanned from its first node):\n");
        print_growth(ratios, &[50, 100, 200, 400, 800].map(chain_shape));
    }
}

fn print_operations(ratios: bool, shapes: &[Shape]) {
    println!(
        "| net | operation | {}proved / plain | first plan / proved |",
        if ratios {
            ""
        } else {
            "proved | plain | first plan | "
        }
    );
    println!(
        "|---|---|{}---|---|",
        if ratios { "" } else { "---|---|---|" }
    );
    for shape in shapes {
        for (operation, name) in OPERATIONS {
            let best = measure(shape, operation);
            let base = is_scan(operation).then(|| measure_against(&plain::BASE, shape, operation));
            let base_time = base.as_ref().map_or(String::new(), |base| time(base.plain));
            let gain = base.map_or(String::new(), |base| {
                format!("{:.2}", base.plain / base.proved)
            });
            let times = if ratios {
                String::new()
            } else {
                format!(
                    "{} | {} | {} | ",
                    time(best.proved),
                    time(best.plain),
                    base_time
                )
            };
            println!(
                "| {} | {} | {}{:.2} | {} |",
                shape.name,
                name,
                times,
                best.proved / best.plain,
                gain
            );
        }
    }
}

/// Whether an operation is scans, so that the plan of the rounds matters.
fn is_scan(operation: Operation) -> bool {
    matches!(
        operation,
        Operation::Scan | Operation::Question | Operation::Clash | Operation::Completion
    )
}

fn print_screenful(ratios: bool, shape: &Shape) {
    println!(
        "| net | {}proved / plain, in one call | proved: in one call / one by one |",
        if ratios {
            ""
        } else {
            "proved, in one call | proved, one by one | "
        }
    );
    println!("|---|{}---|---|", if ratios { "" } else { "---|---|" });
    let at_once = measure(shape, Operation::Questions);
    let one_by_one = measure(shape, Operation::SingleQuestions);
    let times = if ratios {
        String::new()
    } else {
        format!("{} | {} | ", time(at_once.proved), time(one_by_one.proved))
    };
    println!(
        "| {} | {}{:.2} | {:.4} |",
        shape.name,
        times,
        at_once.proved / at_once.plain,
        at_once.proved / one_by_one.proved
    );
}

fn print_rows(ratios: bool, shapes: &[Shape]) {
    println!(
        "| net | words written | rows before | {}proved / plain | proved / by size |",
        if ratios {
            ""
        } else {
            "proved | plain | by size | "
        }
    );
    println!(
        "|---|---|---|{}---|---|",
        if ratios { "" } else { "---|---|---|" }
    );
    for shape in shapes {
        for (before, name) in [(0, "zeros"), (u64::MAX, "ones")] {
            let operation = Operation::CompletionByRows(before);
            let best = measure(shape, operation);
            let by_size = measure_against(&plain::BY_SIZE, shape, operation);
            let times = if ratios {
                String::new()
            } else {
                format!(
                    "{} | {} | {} | ",
                    time(best.proved),
                    time(best.plain),
                    time(by_size.plain)
                )
            };
            println!(
                "| {} | {} | {} | {}{:.2} | {:.2} |",
                shape.name,
                best.answer.first,
                name,
                times,
                best.proved / best.plain,
                by_size.proved / by_size.plain
            );
        }
    }
}

fn print_both_completions(ratios: bool, shape: &Shape) {
    println!(
        "| net | {}proved: by markers / by rows |",
        if ratios {
            ""
        } else {
            "proved, by markers | proved, by rows | "
        }
    );
    println!("|---|{}---|", if ratios { "" } else { "---|---|" });
    let by_markers = measure(shape, Operation::Completion);
    let by_rows = measure(shape, Operation::CompletionByRows(u64::MAX));
    let times = if ratios {
        String::new()
    } else {
        format!("{} | {} | ", time(by_markers.proved), time(by_rows.proved))
    };
    println!(
        "| {} | {}{:.0} |",
        shape.name,
        times,
        by_markers.proved / by_rows.proved
    );
}

fn print_compaction(ratios: bool, shapes: &[Shape]) {
    println!(
        "| net | words left | {}proved / plain |",
        if ratios { "" } else { "proved | plain | " }
    );
    println!("|---|---|{}---|", if ratios { "" } else { "---|---|" });
    for shape in shapes {
        let best = measure(shape, Operation::Compact);
        let times = if ratios {
            String::new()
        } else {
            format!("{} | {} | ", time(best.proved), time(best.plain))
        };
        println!(
            "| {} | {} | {}{:.2} |",
            shape.name,
            best.answer.first,
            times,
            best.proved / best.plain
        );
    }
}

fn print_mending(ratios: bool, shape: &Shape) {
    println!(
        "| net | dropped | {}proved / plain | proved: a link / one scan |",
        if ratios { "" } else { "proved | plain | " }
    );
    println!("|---|---|{}---|---|", if ratios { "" } else { "---|---|" });
    let best = measure(shape, Operation::Mend);
    let scan = measure(shape, Operation::Scan);
    let times = if ratios {
        String::new()
    } else {
        format!("{} | {} | ", time(best.proved), time(best.plain))
    };
    println!(
        "| {} | {} | {}{:.2} | {:.2} |",
        shape.name,
        best.answer.second,
        times,
        best.proved / best.plain,
        best.proved / shape.net.words.len() as f64 / scan.proved
    );
}

fn print_growth(ratios: bool, shapes: &[Shape]) {
    println!(
        "| net | rounds | {}proved / plain | first plan / proved |",
        if ratios {
            ""
        } else {
            "proved | a word and round | "
        }
    );
    println!("|---|---|{}---|---|", if ratios { "" } else { "---|---|" });
    for shape in shapes {
        let best = measure(shape, Operation::Scan);
        let base = measure_against(&plain::BASE, shape, Operation::Scan);
        let rounds = best.answer.first;
        let each = best.proved / (rounds as f64 * shape.net.words.len() as f64);
        let times = if ratios {
            String::new()
        } else {
            format!("{} | {} | ", time(best.proved), time(each))
        };
        println!(
            "| {} | {} | {}{:.2} | {:.2} |",
            shape.name,
            rounds,
            times,
            best.proved / best.plain,
            base.plain / base.proved
        );
    }
}

fn time(seconds: f64) -> String {
    match seconds {
        s if s < 1e-6 => format!("{:.2} ns", s * 1e9),
        s if s < 1e-3 => format!("{:.1} µs", s * 1e6),
        s if s < 1.0 => format!("{:.2} ms", s * 1e3),
        s => format!("{:.2} s", s),
    }
}

fn measure(shape: &Shape, operation: Operation) -> Measured {
    measure_against(&plain::ENGINE, shape, operation)
}

/// The proved engine and a plain one by turns; the best time of each. What they answer and leave in the buffers must be equal.
fn measure_against(plain: &Engine, shape: &Shape, operation: Operation) -> Measured {
    let mut rooms = [room_for(shape), room_for(shape)];
    let engines = [&proved::ENGINE, plain];
    let mut best = [f64::INFINITY; 2];
    let mut answers = [Answer::new(0, 0, 0); 2];
    let mut calls = 1;
    let begun = processor_seconds();
    for turn in 0..MOST_TURNS {
        for side in 0..2 {
            let which = (side + turn) % 2;
            prepare(operation, &mut rooms[which]);
            let from = processor_seconds();
            for _ in 0..calls {
                answers[which] = call(opaque(engines[which]), operation, shape, &mut rooms[which]);
            }
            best[which] = best[which].min((processor_seconds() - from) / calls as f64);
        }
        assert!(
            answers[0] == answers[1] && rooms[0] == rooms[1],
            "the engines differ on {}",
            shape.name
        );
        assert!(
            is_done(operation, answers[0].number),
            "refused on {}",
            shape.name
        );
        let spent = processor_seconds() - begun;
        if spent > TOO_LONG || (spent > SPENT && turn + 1 >= FEWEST_TURNS) {
            break;
        }
        calls = match operation {
            Operation::CompletionByRows(_) => 1,
            _ => (TURN / best[1]).ceil().max(1.0) as usize,
        };
    }
    Measured {
        proved: best[0],
        plain: best[1],
        answer: answers[0],
    }
}

/// What stands in a buffer before a call and is not timed.
fn prepare(operation: Operation, room: &mut Room) {
    if let Operation::CompletionByRows(before) = operation {
        room.yes.fill(before);
        room.no.fill(before);
    }
}

/// A clash test that finds none has done its work too.
fn is_done(operation: Operation, number: u32) -> bool {
    number == 0 || (number == 7 && matches!(operation, Operation::Clash))
}

/// The processor time that this process has taken.
fn processor_seconds() -> f64 {
    #[repr(C)]
    struct Time {
        seconds: i64,
        nanoseconds: i64,
    }
    extern "C" {
        fn clock_gettime(clock: i32, time: *mut Time) -> i32;
    }
    const PROCESSOR_TIME: i32 = 2;
    let mut time = Time {
        seconds: 0,
        nanoseconds: 0,
    };
    let failed = unsafe { clock_gettime(PROCESSOR_TIME, &mut time) };
    assert!(failed == 0, "no clock of processor time");
    time.seconds as f64 + time.nanoseconds as f64 * 1e-9
}

/// The engine, so that the compiler does not see which it is.
fn opaque(engine: &Engine) -> &Engine {
    unsafe { std::ptr::read_volatile(&engine) }
}

fn room_for(shape: &Shape) -> Room {
    let nodes = shape.net.nodes();
    let words = shape.net.words.len();
    Room {
        links: vec![0; words],
        kept: vec![0; words],
        dropped: vec![0; 3 * words],
        answers: vec![0; SCREENFUL],
        marks: vec![0; nodes],
        words_list: vec![0; 2 * nodes * shape.net.k as usize],
        yes: vec![0; shape.net.rows_size()],
        no: vec![0; shape.net.rows_size()],
        scratch: vec![0; 2 * nodes],
        reason_list: vec![0; 2 * nodes + 3],
        path: path_of(shape),
    }
}

/// The reason for the statement asked, to be checked.
fn path_of(shape: &Shape) -> Vec<u16> {
    let Net { o, k, words } = &shape.net;
    let nodes = shape.net.nodes();
    let (mut scratch, mut list) = (vec![0; 2 * nodes], vec![0; 2 * nodes + 3]);
    let (x, y, sign) = (shape.x, shape.y, shape.sign);
    let reason = plain::ENGINE.reason;
    let given = reason(
        *o,
        *k,
        words,
        ALL_ORIGINS,
        x,
        y,
        sign,
        &mut scratch,
        &mut list,
    );
    list.truncate(given.first as usize);
    list
}

/// The words without their origins, into a list of as many places.
fn write_plain(words: &[u32], list: &mut [u32]) {
    for (place, &word) in list.iter_mut().zip(words) {
        *place = plain_of(word);
    }
}

/// Pairs of x and the last kinds of the net.
fn screenful(o: u32, k: u32, x: u32) -> [u16; 2 * SCREENFUL] {
    std::array::from_fn(|at| match at % 2 {
        0 => x as u16,
        _ => (o + k - 1 - (at / 2) as u32 % k) as u16,
    })
}

/// The questions of a screenful by a call for each.
fn ask_singly(engine: &Engine, shape: &Shape, room: &mut Room) -> Answer {
    let Net { o, k, words } = &shape.net;
    let pairs = screenful(*o, *k, shape.x);
    for (pair, byte) in pairs.chunks(2).zip(&mut room.answers) {
        let (x, y) = (pair[0] as u32, pair[1] as u32);
        let given = (engine.question)(*o, *k, words, ALL_ORIGINS, x, y, &mut room.marks);
        *byte = given.first as u8;
    }
    Answer::new(0, 0, 0)
}

fn call(engine: &Engine, operation: Operation, shape: &Shape, room: &mut Room) -> Answer {
    let Shape {
        net: Net { o, k, words },
        x,
        y,
        sign,
        ..
    } = shape;
    let (o, k, x, y, sign) = (*o, *k, *x, *y, *sign);
    match operation {
        Operation::CheckNet => (engine.check_net)(o, k, words, ALL_ORIGINS),
        Operation::Scan => (engine.scan)(o, k, words, ALL_ORIGINS, x, u32::MAX, &mut room.marks),
        Operation::Question => (engine.question)(o, k, words, ALL_ORIGINS, x, y, &mut room.marks),
        Operation::Questions => (engine.questions)(
            o,
            k,
            words,
            ALL_ORIGINS,
            &screenful(o, k, x),
            &mut room.answers,
            &mut room.marks,
        ),
        Operation::SingleQuestions => ask_singly(engine, shape, room),
        Operation::Reason => (engine.reason)(
            o,
            k,
            words,
            ALL_ORIGINS,
            x,
            y,
            sign,
            &mut room.scratch,
            &mut room.reason_list,
        ),
        Operation::ReasonCheck => {
            (engine.reason_check)(o, k, words, ALL_ORIGINS, x, y, sign, &room.path)
        }
        Operation::Clash => (engine.clash)(o, k, words, ALL_ORIGINS, &mut room.marks),
        Operation::Completion => (engine.completion)(
            o,
            k,
            words,
            ALL_ORIGINS,
            &mut room.marks,
            &mut room.words_list,
        ),
        Operation::CompletionByRows(_) => (engine.completion_by_rows)(
            o,
            k,
            words,
            ALL_ORIGINS,
            &mut room.yes,
            &mut room.no,
            &mut room.words_list,
        ),
        Operation::Compact => {
            write_plain(words, &mut room.links);
            (engine.compact)(o, k, &mut room.links, &mut room.marks)
        }
        Operation::Mend => {
            write_plain(words, &mut room.links);
            (engine.mend)(
                o,
                k,
                &room.links,
                &mut room.kept,
                &mut room.dropped,
                &mut room.marks,
            )
        }
    }
}
