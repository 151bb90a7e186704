//! Drives the Rust and the engine through the same calls and compares every answer and every lent byte.
//! Usage: bunlayog-compare [SEED [SECONDS]]
//! The seconds are those of the random calls.
//! Or: bunlayog-compare list FOLDER FOLDER, which writes the files stdin and stdout of the program `replay` to the first, and a list of wrong answers and
//! the report on it to the second, by the Rust alone.
#![feature(arbitrary_self_types)]
#![allow(dead_code, unused_imports, clippy::all)]

mod around;
mod both;
mod call;
mod counted;
mod damage;
mod directed;
mod engine;
mod examples;
mod factorial_examples;
mod file;
mod list;
mod machine;
mod random;
mod report;
mod run;
mod series;
mod series_engine;
mod sheet_model;
mod small;
mod strip_examples;
mod strip_small;
mod strips;
mod values;
mod whole;
mod worst;

use around::{generating_function, ppl, semantics};

mod number {
    //! As in src/number/mod.rs.
    mod number {
        include!(concat!(env!("OUT_DIR"), "/number.rs"));
    }
    mod f64 {
        include!(concat!(env!("OUT_DIR"), "/f64.rs"));
    }
    pub use f64::*;
    pub use number::*;
}
mod univariate_taylor {
    include!(concat!(env!("OUT_DIR"), "/univariate_taylor.rs"));

    /// The tests of this file by name.
    pub const TESTS: [(&str, fn()); 6] = [
        ("test_taylor_expansion_of_coeff", test_taylor_expansion_of_coeff),
        ("test_subst", test_subst),
        ("test_taylor_e_x_squared_1", test_taylor_e_x_squared_1),
        ("test_division", test_division),
        ("test_division_constant", test_division_constant),
        ("test_log", test_log),
    ];
}
mod symbolic {
    include!(concat!(env!("OUT_DIR"), "/symbolic.rs"));
    pub mod oracle {
        use super::*;
        include!("oracle.rs");
        include!("series_oracle.rs");
        include!("strip_oracle.rs");
    }
}

use counted::Refusal;
use run::Run;
use symbolic::oracle;
use std::time::Duration;

fn main() {
    std::panic::set_hook(Box::new(|info| {
        if info.payload().downcast_ref::<Refusal>().is_none() {
            let text = info.to_string();
            if call::number_of_panic(&text).is_none() {
                eprintln!("{text}");
            }
        }
    }));
    let mut args = std::env::args().skip(1).peekable();
    if args.next_if_eq("list").is_some() {
        return write_lists(&args.next().expect("a folder"), &args.next().expect("a folder for wrong answers"));
    }
    let seed: u64 = args.next().map_or(20_261_115, |s| s.parse().expect("a seed"));
    let seconds: u64 = args.next().map_or(60, |s| s.parse().expect("seconds"));
    // the Rust's walks recurse with large frames
    let done = std::thread::Builder::new().stack_size(256 << 20).spawn(move || all(seed, seconds)).unwrap().join();
    std::process::exit(if matches!(done, Ok(true)) { 0 } else { 1 });
}

/// The fixed list of answers, with a seed of its own, and the list of wrong ones.
fn write_lists(right: &str, wrong: &str) {
    let made = || (list::made(20_261_116), list::wrong());
    let ((list, last), wrong_list) = std::thread::Builder::new().stack_size(256 << 20).spawn(made).unwrap().join().unwrap();
    let files = [(right, "stdin", list), (right, "stdout", last), (wrong, "wrong", wrong_list.list), (wrong, "report", wrong_list.report)];
    for (folder, name, text) in files {
        std::fs::write(format!("{folder}/{name}"), text).expect(name);
    }
}

fn all(seed: u64, seconds: u64) -> bool {
    examples::all();
    let directed = directed::run();
    worst::all();
    small::all();
    strip_small::all();
    let sheet = sheet_model::all(seed);
    let mut run = Run::new(seed);
    run.go(Duration::from_secs(seconds));
    println!("seed {seed}: {} random calls, the Rust and the engine agree on every answer and every lent byte", run.both.met.calls_made());
    println!("{} evaluations ran over the Rust's F64 as well", oracle::evaluations_over_f64());
    println!("{} strips that were made gave, run over random values, the bits of their expressions' evaluation", run.both.met.strips_run);
    run.both.met.take(directed);
    report::complete(&run.both.met) && sheet && oracle::evaluations_over_f64() > 0 && run.both.met.strips_run > 0
}
