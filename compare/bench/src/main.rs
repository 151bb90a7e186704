//! Times of this engine beside the Rust's, of the pool check beside a plain C loop, and of key strips beside plain C. README.md of compare/ says how to run it.
//! Usage: bunlayog-bench [MILLISECONDS] | check [MILLISECONDS] | once SIDE OPERATION SIZE [RUNS] | cases | stack
#![allow(dead_code, unused_imports, clippy::all)]

#[path = "../../src/around.rs"]
mod around;
mod cases;
mod checks;
mod engine;
mod original;
mod stack;
mod strips;
mod timing;
#[path = "../../src/values.rs"]
mod values;
#[path = "../../src/whole.rs"]
mod whole;

/// A refusal: no case of the bench meets one.
mod counted {
    pub fn refuse(number: u32) -> ! {
        panic!("refused by {number}")
    }
}

use around::{generating_function, ppl, semantics};
use original::{number, symbolic, univariate_taylor};

use cases::{Side, OPERATIONS};
use std::time::Duration;

/// Both sides of a case in turn: times in nanoseconds, the Rust's where it has the operation.
fn times(operation: cases::Operation, size: u64, time: Duration) -> (f64, Option<f64>) {
    let mut engine = cases::Engine::new(operation, size);
    if !cases::in_rust(operation) {
        return (timing::median(time, || timing::run(&mut engine)), None);
    }
    let mut rust = cases::Rust::new(operation, size);
    timing::run(&mut engine);
    timing::run(&mut rust);
    assert!(engine.answer() == rust.answer(), "{operation:?} {size}: the answers differ");
    let ours = timing::median(time, || timing::run(&mut engine));
    let theirs = timing::median(time, || timing::run(&mut rust));
    (ours, Some(theirs))
}

fn compare(time: Duration) {
    println!("The pool and the Rust's answer are cleared between runs, outside the time. Growth: time over that of the smallest size.");
    println!("operation    size   engine µs     Rust µs   ratio   growth: engine    Rust   ratio");
    for (operation, name, sizes) in OPERATIONS {
        let mut least = None;
        for &size in sizes {
            let (ours, theirs) = times(operation, size, time);
            let (first, rust_first) = *least.get_or_insert((ours, theirs));
            print!("{name:12} {size:4} {:11.2}", ours / 1e3);
            match (theirs, rust_first) {
                (Some(theirs), Some(rust_first)) => {
                    let (growth, rust_growth) = (ours / first, theirs / rust_first);
                    println!(" {:11.2} {:7.2}   {growth:14.2} {rust_growth:7.2} {:7.2}", theirs / 1e3, ours / theirs, growth / rust_growth)
                }
                _ => println!("                       {:14.2}", ours / first),
            }
        }
    }
}

/// What callgrind counts is what runs inside here.
#[inline(never)]
fn measured(side: &mut dyn Side) {
    side.work();
}

fn once(side: &str, name: &str, size: u64, runs: u64) {
    let (operation, ..) = *OPERATIONS.iter().find(|(_, n, _)| *n == name).expect("an operation");
    let mut side: Box<dyn Side> = match side {
        "engine" => Box::new(cases::Engine::new(operation, size)),
        _ => Box::new(cases::Rust::new(operation, size)),
    };
    for _ in 0..runs {
        side.prepare();
        measured(&mut *side);
    }
}

fn main() {
    let args: Vec<String> = std::env::args().skip(1).collect();
    if args.first().is_some_and(|a| a == "once") {
        let runs = args.get(4).map_or(1, |a| a.parse().expect("a number of runs"));
        return once(&args[1], &args[2], args[3].parse().expect("a size"), runs);
    }
    if args.first().is_some_and(|a| a == "cases") {
        // one case of each operation, the second size
        return OPERATIONS.iter().for_each(|(_, name, sizes)| println!("{name} {}", sizes[1]));
    }
    if args.first().is_some_and(|a| a == "stack") {
        let within = stack::measure();
        std::process::exit(if within { 0 } else { 1 });
    }
    let checks_alone = args.first().is_some_and(|a| a == "check");
    let time = args.get(checks_alone as usize).map_or(300, |a| a.parse().expect("milliseconds"));
    let time = Duration::from_millis(time);
    if checks_alone {
        return checks::compare(time);
    }
    compare(time);
    checks::compare(time);
    strips::compare(time);
}
