//! The Rust and the engine side by side on one pool: a call is made on both, and its answer, the count and every lent byte are compared.
use crate::call::{Answer, Call, Given};
use crate::counted;
use crate::engine::Engine;
use crate::symbolic::oracle;
use std::collections::BTreeMap;

/// How often each rule of the constructors was met, and each outcome of each call: 0 for accepted, or the refusal number.
#[derive(Default)]
pub struct Met {
    pub rules: BTreeMap<&'static str, u64>,
    pub calls: BTreeMap<&'static str, BTreeMap<u32, u64>>,
    /// How many strips that were made ran as their expressions evaluate.
    pub strips_run: u64,
}

impl Met {
    pub fn count(&mut self, name: &'static str, outcome: u32) {
        *self.calls.entry(name).or_default().entry(outcome).or_default() += 1;
    }

    pub fn calls_made(&self) -> u64 {
        self.calls.values().flat_map(|outcomes| outcomes.values()).sum()
    }

    /// Each call with each outcome that it had.
    pub fn outcomes(&self) -> impl Iterator<Item = (&'static str, u32)> + '_ {
        self.calls.iter().flat_map(|(name, outcomes)| outcomes.keys().map(move |number| (*name, *number)))
    }

    /// What another part of a run has met, counted here too.
    pub fn take(&mut self, other: Met) {
        self.strips_run += other.strips_run;
        other.rules.into_iter().for_each(|(rule, n)| *self.rules.entry(rule).or_default() += n);
        for (name, outcomes) in other.calls {
            outcomes.into_iter().for_each(|(number, n)| *self.calls.entry(name).or_default().entry(number).or_default() += n);
        }
    }

    pub fn refused_by(&self, number: u32) -> u64 {
        self.calls.values().filter_map(|outcomes| outcomes.get(&number)).sum()
    }
}

pub struct Both {
    pub engine: Engine,
    pub met: Met,
}

impl Both {
    pub fn new() -> Self {
        counted::forget_from(0);
        Both { engine: Engine::new(), met: Met::default() }
    }

    /// Makes a call on both sides. Entries that are old have been compared before, and the guards see them.
    pub fn call(&mut self, call: &Call) -> Answer {
        let before = counted::count();
        self.rule_of(call, before as u64);
        let theirs = call.theirs();
        let mine = call.mine(&mut self.engine);
        let same = theirs == mine && counted::count() as u64 == self.engine.count();
        let new = before..counted::count();
        if !same || new.clone().any(|i| oracle::entry(i) != self.engine.entry(i)) {
            differ(call, before, &theirs, &mine, &self.engine);
        }
        self.engine.check_guards(call.name());
        self.met.count(call.name(), theirs.as_ref().err().copied().unwrap_or(0));
        theirs
    }

    /// The strip of an expression and, where it is made, its run over a table of values: "the bits of the double evaluation".
    pub fn strip_and_run(&mut self, root: u64, values: &[f64]) -> Answer {
        let made = self.call(&Call::Strip { root, room: 65_535 });
        if let Ok(Given::Bytes(strip)) = &made {
            let ran = self.call(&Call::RunStrip { strip: strip.clone(), values: values.to_vec() });
            assert_eq!(ran, self.call(&Call::Evaluate(root, values.to_vec())), "the run of the strip of node {root}, and its evaluation");
            self.met.strips_run += 1;
        }
        made
    }

    fn rule_of(&mut self, call: &Call, count: u64) {
        let (a, b) = match call {
            Call::Add(a, b) | Call::Mul(a, b) | Call::Div(a, b) => (*a, *b),
            Call::Exp(a) | Call::Log(a) => (*a, *a),
            _ => return,
        };
        if a < count && b < count {
            *self.met.rules.entry(oracle::rule_of(call.name(), a, b)).or_default() += 1;
        }
    }

    /// A node as it is, by no constructor, on both sides.
    pub fn raw(&mut self, kind: u8, word: u64) -> u64 {
        self.engine.push_raw(kind, word);
        oracle::raw(kind, word)
    }

    /// x0 until the pool has so many nodes.
    pub fn fill(&mut self, to: usize) {
        while counted::count() < to {
            self.raw(1, 0);
        }
    }

    /// Forgets the nodes from a number on, on both sides.
    pub fn forget_from(&mut self, count: usize) {
        counted::forget_from(count);
        self.engine.forget_from(count);
    }
}

/// Says what differs, with what is needed to make the call again.
fn differ(call: &Call, before: usize, theirs: &Answer, mine: &Answer, engine: &Engine) -> ! {
    eprintln!("the Rust and the engine differ: {call:?}");
    eprintln!("the Rust: {theirs:?}, count {}", counted::count());
    eprintln!("the engine: {mine:?}, count {}", engine.count());
    for i in before..counted::count().max(engine.count() as usize) {
        let rust = if i < counted::count() { Some(oracle::entry(i)) } else { None };
        if rust != Some(engine.entry(i)) {
            eprintln!("entry {i}: the Rust {rust:?}, the engine {:?}", engine.entry(i));
            break;
        }
    }
    let shown: Vec<_> = (0..before.min(300)).map(|i| engine.entry(i)).collect();
    eprintln!("the pool before, {before} nodes: {shown:?}");
    panic!("a difference");
}
