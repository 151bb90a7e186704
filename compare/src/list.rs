//! The fixed list of calls and answers that the program `replay` makes again. Every answer comes from the Rust and document 01's words
//! (`Call::theirs`, file.rs): the engine is not called here.
use crate::both::Met;
use crate::call::{Answer, Call, Given, Series, ENDLESS, TERMS};
use crate::counted::{self, LIMIT};
use crate::random::Random;
use crate::file::Entry;
use crate::symbolic::oracle;
use crate::{damage, directed, file, report, strips};
use std::collections::BTreeSet;
use std::fmt::Write;

/// No line is longer: a call that would need more is not taken.
const LINE_MAX: usize = 8_000;
/// The list comes in blocks of so many bytes, each of whole lines and filled up with spaces: the program reads block by block.
const BLOCK: usize = 16_384;
/// The longest text or file of the list, and the longest output but for texts of 65,536 bytes.
const BYTES_MAX: usize = 400;
/// The longest table of values that is written out: a longer one has entries that are all alike.
const VALUES_MAX: usize = 64;
/// The longest strip of the list that is run.
const STRIP_MAX: usize = 2_048;
/// How many calls the list has at least.
const CALLS: u64 = 5_000;

const HEAD: &str = "Calls of the engine and what the Rust answers: see README.md beside this list. A number is a run of digits; the words are for the reader.\n";

pub struct List {
    random: Random,
    text: String,
    met: Met,
    /// Expansions that calls on this pool gave.
    kept: Vec<Series>,
}

/// The whole list, and the line that the program prints when nothing differs.
pub fn made(seed: u64) -> (String, String) {
    let mut list = List { random: Random(seed | 1), text: HEAD.to_string(), met: Met::default(), kept: Vec::new() };
    list.each_rule();
    list.each_shape();
    list.each_refusal();
    list.each_outcome();
    list.full_pool();
    (0..5).for_each(|kind| list.nested(kind));
    while list.met.calls_made() < CALLS {
        list.restart();
        let steps = 20 + list.random.below(40);
        (0..steps).for_each(|_| list.step());
        if list.random.below(4) == 0 {
            list.damaged();
        }
    }
    list.complete();
    let calls = list.met.calls_made() + cases_checked();
    (in_blocks(&(list.text + CASES)), format!("{calls} calls replayed, 0 differ\n"))
}

fn in_blocks(text: &str) -> String {
    let mut list = String::new();
    for line in text.split_inclusive('\n') {
        assert!(line.len() < BLOCK, "a line that is longer than a block");
        let left = BLOCK - list.len() % BLOCK;
        if line.len() > left {
            writeln!(list, "{:1$}", "", left - 1).unwrap();
        }
        list += line;
    }
    list
}

/// The number of an operation in the list.
fn operation(call: &Call) -> u32 {
    use Call::*;
    match call {
        Lit(_) => 10,
        Var(_) => 11,
        Add(..) => 12,
        Mul(..) => 13,
        Div(..) => 14,
        Max(..) => 15,
        Neg(_) => 16,
        Exp(_) => 17,
        Log(_) => 18,
        Pow(..) => 19,
        SubstituteVar { .. } => 20,
        Derive { .. } => 21,
        Evaluate(_, values) => if values.len() > VALUES_MAX { 28 } else { 22 },
        EvaluateResidue(_, values) => if values.len() > VALUES_MAX { 29 } else { 23 },
        Print { .. } => 24,
        Write { .. } => 25,
        Read(_) => 26,
        TaylorVar { .. } => 30,
        TaylorFromCoefficients(_) => 31,
        TaylorCoeff(..) => 32,
        TaylorDerivative(..) => 33,
        TaylorOrder(_) => 34,
        TaylorExp(_) => 35,
        TaylorLog(_) => 36,
        TaylorNeg(_) => 37,
        TaylorPow(..) => 38,
        TaylorAdd(..) => 39,
        TaylorSub(..) => 40,
        TaylorMul(..) => 41,
        TaylorDiv(..) => 42,
        TaylorMax(..) => 43,
        TaylorSubst(..) => 44,
        TaylorCoeffs { .. } => 45,
        TaylorCoeffsAt { .. } => 46,
        Strip { .. } => 49,
        RunStrip { values, .. } => if values.len() > VALUES_MAX { 51 } else { 50 },
    }
}

fn numbers<T: ToString>(some: impl IntoIterator<Item = T>) -> String {
    some.into_iter().map(|x| format!(" {}", x.to_string())).collect()
}

/// Order, how many entries are written, and these: the rest of the 25 are 0.
fn series(s: &Series) -> String {
    let written = s.coeffs.iter().rposition(|c| *c != 0).map_or(0, |i| i + 1);
    format!("order {} entries {written}{}", s.order, numbers(&s.coeffs[..written]))
}

/// The values, or the first of a long table, whose entries are all alike.
fn written<T: PartialEq>(values: &[T]) -> &[T] {
    if values.len() <= VALUES_MAX {
        return values;
    }
    assert!(values.iter().all(|x| *x == values[0]), "a long table of different values");
    &values[..1]
}

fn arguments(call: &Call) -> String {
    use Call::*;
    match call {
        Lit(z) => format!("word {}", *z as u64),
        Var(v) => v.to_string(),
        Add(a, b) | Mul(a, b) | Div(a, b) | Max(a, b) => format!("{a} {b}"),
        Neg(a) | Exp(a) | Log(a) => a.to_string(),
        Pow(a, e) => format!("{a} {e}"),
        SubstituteVar { root, var, value } => format!("root {root} var {var} value {value}"),
        Derive { root, var } => format!("root {root} var {var}"),
        Evaluate(root, values) => format!("root {root} values {}{}", values.len(), numbers(written(values).iter().map(|x| x.to_bits()))),
        EvaluateResidue(root, values) => format!("root {root} values {}{}", values.len(), numbers(written(values))),
        Print { root, room } | Write { root, room } | Strip { root, room } => format!("room {room} root {root}"),
        Read(bytes) => format!("length {} bytes{}", bytes.len(), numbers(bytes)),
        RunStrip { strip, values } => {
            format!("length {} bytes{} values {}{}", strip.len(), numbers(strip), values.len(), numbers(written(values).iter().map(|x| x.to_bits())))
        }
        TaylorVar { x, order } => format!("at {x} order {order}"),
        TaylorFromCoefficients(s) | TaylorOrder(s) | TaylorNeg(s) | TaylorExp(s) | TaylorLog(s) => series(s),
        TaylorCoeff(s, i) | TaylorDerivative(s, i) => format!("{} index {i}", series(s)),
        TaylorPow(s, e) => format!("{} exponent {e}", series(s)),
        TaylorAdd(s, t) | TaylorSub(s, t) | TaylorMul(s, t) | TaylorDiv(s, t) | TaylorMax(s, t) | TaylorSubst(s, t) => {
            format!("{} and {}", series(s), series(t))
        }
        TaylorCoeffs { root, var, order } => format!("root {root} var {var} order {order}"),
        TaylorCoeffsAt { root, var, point, order } => format!("root {root} var {var} point {} order {order}", *point as u64),
    }
}

/// Whether a call's answer is followed by the entries that it appended.
fn works_on_the_pool(call: &Call) -> bool {
    use Call::*;
    !matches!(call, Evaluate(..) | EvaluateResidue(..) | Print { .. } | Write { .. } | Strip { .. } | RunStrip { .. } | TaylorFromCoefficients(_) | TaylorOrder(_))
}

/// An answer, and the entries that the call appended.
#[derive(Clone, PartialEq)]
struct Outcome {
    answer: Answer,
    new: Vec<Entry>,
}

/// What the Rust answers. The entries stay.
fn outcome(call: &Call) -> Outcome {
    let before = counted::count();
    let answer = call.theirs();
    Outcome { answer, new: (before..counted::count()).map(oracle::entry).collect() }
}

fn answered(call: &Call, Outcome { answer, new }: &Outcome) -> String {
    let mut text = match answer {
        Err(number) => return number.to_string(),
        Ok(Given::Number(n)) if works_on_the_pool(call) => format!("0 node {n}"),
        Ok(Given::Number(n)) => format!("0 value {n}"),
        Ok(Given::Bytes(bytes)) => format!("0 length {} bytes{}", bytes.len(), numbers(bytes)),
        Ok(Given::Expansion(s)) => format!("0 {}", series(s)),
    };
    if works_on_the_pool(call) {
        write!(text, " new {}", new.len()).unwrap();
        new.iter().for_each(|(kind, word)| write!(text, " kind {kind} word {word}").unwrap());
    }
    text
}

fn line(call: &Call, outcome: &Outcome) -> String {
    format!("{} {} {} gives {}\n", operation(call), call.name(), arguments(call), answered(call, outcome))
}

impl List {
    fn count(&self) -> u64 {
        counted::count() as u64
    }

    fn node(&mut self) -> u64 {
        let count = self.count();
        self.random.node(count)
    }

    /// A call with its answer as a line. One that would be too long is taken back.
    fn call(&mut self, call: Call) -> Option<Given> {
        let before = counted::count();
        let rule = rule_of(&call, before as u64);
        let outcome = outcome(&call);
        let line = line(&call, &outcome);
        let answer = outcome.answer;
        if line.len() > LINE_MAX || matches!(&call, Call::RunStrip { strip, .. } if strip.len() > STRIP_MAX) {
            counted::forget_from(before);
            return None;
        }
        self.text += &line;
        self.met.count(call.name(), answer.as_ref().err().copied().unwrap_or(0));
        if let Some(rule) = rule {
            *self.met.rules.entry(rule).or_default() += 1;
        }
        if let Ok(Given::Expansion(s)) = &answer {
            self.kept.push(*s);
        }
        answer.ok()
    }

    /// A call on a pool that breaks a rule: "1. The pool breaks a rule above".
    fn refused_by_one(&mut self, call: &Call) {
        writeln!(self.text, "{} {} {} gives 1", operation(call), call.name(), arguments(call)).unwrap();
        self.met.count(call.name(), 1);
    }

    fn check(&mut self, refusal: u32) {
        writeln!(self.text, "27 check gives {refusal}").unwrap();
        self.met.count("check", refusal);
    }

    /// An empty pool.
    fn clear(&mut self) {
        counted::forget_from(0);
        self.kept.clear();
        self.text += "0 clear\n";
    }

    /// A node as it is, by no constructor. The count is set after all of them.
    fn put(&mut self, kind: u8, word: u64) -> u64 {
        let i = oracle::raw(kind, word);
        self.put_entry(i, (kind, word));
        i
    }

    fn put_entry(&mut self, i: u64, (kind, word): file::Entry) {
        writeln!(self.text, "1 put {i} kind {kind} word {word}").unwrap();
    }

    fn set_count(&mut self, count: u64) {
        writeln!(self.text, "2 count {count}").unwrap();
    }

    /// x0 again and again, up to a count.
    fn fill(&mut self, to: u64) {
        let from = self.count();
        (from..to).for_each(|_| {
            oracle::raw(1, 0);
        });
        writeln!(self.text, "3 fill from {from} to {to} kind 1 word 0").unwrap();
        self.set_count(to);
    }
}

/// The rule of the Rust that a call meets first.
fn rule_of(call: &Call, count: u64) -> Option<&'static str> {
    let (a, b) = match call {
        Call::Add(a, b) | Call::Mul(a, b) | Call::Div(a, b) => (*a, *b),
        Call::Exp(a) | Call::Log(a) => (*a, *a),
        _ => return None,
    };
    if a < count && b < count { Some(oracle::rule_of(call.name(), a, b)) } else { None }
}

fn pair(a: u64, b: u64) -> u64 {
    a + (b << 32)
}

/// Entries that meet the rules: literals, variables, and each kind of node over them.
pub fn shapes() -> Vec<Entry> {
    let lit = |z: i64| (2, z as u64);
    let mut entries: Vec<Entry> = vec![(1, 0), (1, 1), lit(0), lit(1), lit(2), lit(-3), lit(crate::whole::MAX)];
    let (x, y, one, two) = (0, 1, 3, 4);
    let (exp_x, exp_y, square, most) = (7, 8, 9, 10);
    entries.extend([(6, x), (6, y), (8, pair(x, 2)), (8, pair(x, u32::MAX as u64))]);
    entries.extend([(x, one), (y, two), (two, x), (x, y)].map(|(a, b)| (3, pair(a, b))));
    let products = [(two, x), (two, y), (y, x), (exp_x, y), (y, exp_x), (exp_y, exp_x), (y, square), (y, most)];
    entries.extend(products.map(|(a, b)| (4, pair(a, b))));
    entries.extend([(5, pair(x, y)), (7, x), (9, pair(x, y))]);
    entries
}

/// The fixed part: every shape that a rule looks at, with every other.
impl List {
    fn shapes(&mut self) -> Vec<u64> {
        shapes().iter().for_each(|(kind, word)| {
            self.put(*kind, *word);
        });
        let count = self.count();
        self.set_count(count);
        (0..count).collect()
    }

    /// Products of all shapes, and half of their sums.
    fn each_rule(&mut self) {
        self.clear();
        let shapes = self.shapes();
        for (a, b) in shapes.iter().flat_map(|a| shapes.iter().map(move |b| (*a, *b))) {
            self.call(Call::Mul(a, b));
        }
        self.clear();
        let shapes = self.shapes();
        for (a, b) in shapes.iter().flat_map(|a| shapes.iter().map(move |b| (*a, *b))) {
            if a % 2 == 0 || b % 2 == 0 {
                self.call(Call::Add(a, b));
            }
        }
    }

    fn all(&mut self, calls: Vec<Call>) {
        calls.into_iter().for_each(|call| {
            self.call(call);
        });
    }

    /// The strip of an expression, and its run.
    fn strip_and_run(&mut self, root: u64, values: Vec<f64>) {
        if let Some(Given::Bytes(strip)) = self.call(Call::Strip { root, room: BYTES_MAX }) {
            self.call(Call::RunStrip { strip, values });
        }
    }

    /// Every other call on each shape.
    fn each_shape(&mut self) {
        self.clear();
        let shapes = self.shapes();
        for a in &shapes {
            let b = shapes[(*a as usize + 3) % shapes.len()];
            let (constant, list) = (Series::constant(*a), Series::list(&[*a, b]));
            self.all(on_shape(*a, b));
            self.strip_and_run(*a, vec![0.5, -3.0]);
            self.all(vec![
                Call::TaylorExp(constant), Call::TaylorLog(list), Call::TaylorMul(list, list), Call::TaylorDiv(constant, list),
                Call::TaylorPow(list, 2), Call::TaylorMax(constant, Series::constant(b)), Call::TaylorDerivative(list, 1),
                Call::TaylorSubst(list, list), Call::TaylorSub(constant, list),
            ]);
        }
    }

    /// Arguments that are refused before the work: nodes, variables, literals, orders, lengths, indices and values.
    fn each_refusal(&mut self) {
        self.clear();
        self.shapes();
        // no pool has this node
        let none = LIMIT as u64;
        let wrong_order = |order: u64| Series { order, coeffs: [1; TERMS] };
        let wrong = [Series::list(&[0, none]), Series::constant(none), wrong_order(0), wrong_order(26), wrong_order(ENDLESS - 1)];
        self.all(damage::each_call(none, 0, wrong[0]));
        self.all(damage::each_call(0, 65_536, wrong[2]));
        self.all(damage::each_call(1, u64::MAX, wrong[3]));
        let good = Series::list(&[0, 1]);
        for s in wrong {
            use Call::*;
            self.all(vec![
                TaylorFromCoefficients(s), TaylorOrder(s), TaylorCoeff(s, 0), TaylorDerivative(s, 0), TaylorNeg(s), TaylorExp(s), TaylorLog(s),
                TaylorPow(s, 0), TaylorAdd(s, good), TaylorSub(good, s), TaylorMul(s, good), TaylorDiv(good, s), TaylorMax(s, good), TaylorSubst(good, s),
            ]);
        }
        let long = Series::list(&[1; TERMS]);
        for index in [0, 17, 18, 19, 24, 25] {
            self.all(vec![Call::TaylorCoeff(long, index), Call::TaylorDerivative(long, index), Call::TaylorVar { x: 0, order: index }]);
        }
        self.all(vec![Call::TaylorSubst(good, long), Call::TaylorAdd(good, long), Call::TaylorMax(good, good)]);
    }

    /// The calls made for each outcome that an operation can have; last a count that is one too large.
    fn each_outcome(&mut self) {
        self.clear();
        let directed::All { pool, calls, full } = directed::all();
        pool.entries.iter().for_each(|(kind, word)| {
            self.put(*kind, *word);
        });
        self.set_count(pool.entries.len() as u64);
        self.all(calls.into_iter().map(|(_, call)| call).collect());
        self.fill(LIMIT as u64);
        self.all(full.into_iter().map(|(_, call)| call).collect());
        self.check(0);
        self.set_count(LIMIT as u64 + 1);
        self.check(1);
        damage::each_call(0, 0, Series::constant(0)).iter().for_each(|call| self.refused_by_one(call));
    }

    /// A pool with no room: what appends nothing is accepted, and 11, 12 and 13 come before 18.
    fn full_pool(&mut self) {
        self.clear();
        let shapes = self.shapes();
        self.fill(LIMIT as u64);
        for a in &shapes {
            let b = shapes[(*a as usize + 5) % shapes.len()];
            self.all(on_shape(*a, b));
            self.all(vec![Call::Add(*a, b), Call::Mul(*a, b), Call::Pow(*a, 1), Call::TaylorAdd(Series::constant(*a), Series::list(&[b, *a]))]);
        }
        self.all(vec![Call::Lit(1), Call::Var(1), Call::TaylorVar { x: 0, order: 0 }, Call::TaylorCoeff(Series::constant(0), 1)]);
    }

    /// Nodes nested to depth 201, as a file would bring them in, and calls on the last of them.
    fn nested(&mut self, kind: u64) {
        self.clear();
        let (y, z) = (self.put(1, 1), self.put(1, 2));
        let top = self.chain(kind, 201);
        let products: Vec<u64> = (top - 2..=top).map(|a| self.put(4, pair(a, z))).collect();
        let count = self.count();
        self.set_count(count);
        for (a, product) in (top - 2..=top).zip(products) {
            let list = Series::list(&[a, y]);
            self.all(vec![
                Call::SubstituteVar { root: product, var: 2, value: y }, Call::Add(y, a), Call::TaylorSubst(list, list),
                Call::TaylorCoeffs { root: product, var: 2, order: 1 },
                Call::Mul(a, y), Call::Mul(y, a), Call::Mul(a, a), Call::Add(a, y), Call::Exp(a), Call::Log(a), Call::Div(a, a), Call::Neg(a),
                Call::Evaluate(a, vec![1.0]),
                Call::EvaluateResidue(a, vec![3]), Call::Print { root: a, room: BYTES_MAX }, Call::Write { root: a, room: BYTES_MAX },
                Call::Strip { root: a, room: BYTES_MAX },
                Call::TaylorExp(list), Call::TaylorLog(list), Call::TaylorMul(list, list),
                Call::TaylorNeg(list), Call::TaylorPow(list, 2), Call::TaylorDiv(list, list), Call::TaylorDerivative(list, 1),
            ]);
        }
        self.all(vec![Call::Derive { root: top, var: 1 }, Call::TaylorCoeffs { root: top, var: 1, order: 2 }]);
    }
}

/// The calls on one node and another.
fn on_shape(a: u64, b: u64) -> Vec<Call> {
    vec![
        Call::Div(a, b), Call::Max(a, b), Call::Neg(a), Call::Exp(a), Call::Log(a), Call::Pow(a, 0), Call::Pow(a, 3),
        Call::Derive { root: a, var: 0 }, Call::SubstituteVar { root: a, var: 0, value: b }, Call::Evaluate(a, vec![0.5, -3.0]),
        Call::EvaluateResidue(a, vec![5, 0]), Call::Print { root: a, room: 40 }, Call::TaylorCoeffs { root: a, var: 0, order: 2 },
        Call::TaylorCoeffsAt { root: a, var: 0, point: 1, order: 2 },
    ]
}

/// The random part.
impl List {
    /// A fresh pool, now and then nearly full or deeply nested from the start.
    fn restart(&mut self) {
        self.clear();
        if self.random.below(5) == 0 {
            let room = self.random.below(40);
            self.fill(LIMIT as u64 - room);
        }
        for _ in 0..3 {
            let v = self.random.below(3);
            self.call(Call::Var(v));
            let z = self.random.literal();
            self.call(Call::Lit(z));
        }
    }

    /// Nested products, sums or logarithms, one in another, as nodes of a file would come in: the outermost. The count is set after it.
    fn chain(&mut self, kind: u64, levels: u64) -> u64 {
        let lit = self.put(2, [2, 0, 1, 1, 1][kind as usize]);
        let mut top = self.put(1, 0);
        for _ in 0..levels {
            let (k, w) = match kind {
                0 => (4, pair(lit, top)),
                1 => (3, pair(top, lit)),
                2 => (3, pair(top, top)),
                3 => (7, top),
                _ => (4, pair(lit, top)),
            };
            top = self.put(k, w);
        }
        top
    }

    fn building(&mut self, a: u64, b: u64) -> Call {
        match self.random.below(64) {
            0..=4 => Call::Lit(self.random.literal()),
            5..=8 => Call::Var(self.random.variable()),
            9..=18 => Call::Add(a, b),
            19..=30 => Call::Mul(a, b),
            31..=34 => Call::Div(a, b),
            35..=36 => Call::Max(a, b),
            37..=39 => Call::Neg(a),
            40..=43 => Call::Exp(a),
            44..=47 => Call::Log(a),
            48..=53 => Call::SubstituteVar { root: a, var: self.random.variable(), value: b },
            54..=58 => Call::Derive { root: a, var: self.random.variable() },
            _ => Call::Pow(a, self.random.exponent()),
        }
    }

    fn valued(&mut self, root: u64) -> Call {
        let n = if self.random.below(40) == 0 { 64 } else { self.random.below(4) };
        if self.random.below(2) == 0 {
            return Call::Evaluate(root, (0..n).map(|_| self.random.double()).collect());
        }
        Call::EvaluateResidue(root, (0..n).map(|_| self.random.residue()).collect())
    }

    /// A room about as long as the result, or as long as any of the list.
    fn room(&mut self, result: Answer) -> usize {
        let length = if let Ok(Given::Bytes(bytes)) = result { bytes.len().min(BYTES_MAX) } else { 0 };
        match self.random.below(4) {
            0 => length,
            1 => length.saturating_sub(1),
            2 => self.random.below(100) as usize,
            _ => BYTES_MAX,
        }
    }

    fn put_out(&mut self, root: u64) -> Call {
        if self.random.below(2) == 0 {
            let room = self.room(Call::Print { root, room: BYTES_MAX }.theirs());
            return Call::Print { root, room };
        }
        let room = self.room(Call::Write { root, room: BYTES_MAX }.theirs());
        Call::Write { root, room }
    }

    fn doubles(&mut self) -> Vec<f64> {
        (0..self.random.below(4)).map(|_| self.random.double()).collect()
    }

    /// A strip of an expression or of random keys, as it is or damaged, and its run; or an output about as long as the strip.
    fn strips(&mut self, root: u64) {
        let values = self.doubles();
        let strip = match self.random.below(4) {
            0 => return self.strip_and_run(root, values),
            1 => {
                let room = self.room(Call::Strip { root, room: BYTES_MAX }.theirs());
                return self.call(Call::Strip { root, room }).map_or((), |_| ());
            }
            2 => strips::of_keys(&mut self.random),
            _ => {
                let strip = strips::of_keys(&mut self.random);
                strips::damaged(&mut self.random, strip)
            }
        };
        self.call(Call::RunStrip { strip, values });
    }

    fn read(&mut self, root: u64) -> Call {
        let written = Call::Write { root, room: BYTES_MAX - 20 }.theirs();
        let file = match written {
            Ok(Given::Bytes(file)) if self.random.below(4) > 0 => file,
            _ => damage::random_file(&mut self.random),
        };
        Call::Read(damage::file(&mut self.random, file))
    }

    /// (b × a^m) × a^n, which random calls seldom come to.
    fn powers(&mut self, a: u64, b: u64) {
        let (m, n) = (self.random.exponent(), self.random.exponent());
        let Some(Given::Number(p)) = self.call(Call::Pow(a, m)) else { return };
        let Some(Given::Number(q)) = self.call(Call::Pow(a, n)) else { return };
        let Some(Given::Number(product)) = self.call(Call::Mul(b, p)) else { return };
        self.call(Call::Mul(product, q));
    }

    /// An expansion: one that an earlier call gave, a constant or a list, now and then one that is refused.
    fn series(&mut self) -> Series {
        let mut s = match self.random.below(8) {
            0..=3 if !self.kept.is_empty() => self.kept[self.random.below(self.kept.len() as u64) as usize],
            4 => Series::constant(self.node()),
            _ => {
                let n = if self.random.below(12) == 0 { TERMS as u64 } else { 1 + self.random.below(4) };
                let count = self.count().max(1);
                Series::list(&(0..n).map(|_| self.random.below(count)).collect::<Vec<_>>())
            }
        };
        match self.random.below(32) {
            0 => s.order = self.random.one_of(&[0, 26, ENDLESS - 1, 1 << 32]),
            1 => s.coeffs[0] = self.node(),
            // entries past the end, which are not read, need be no nodes
            2 => s.coeffs[TERMS - 1] = if s.nodes().len() < TERMS { u64::MAX } else { s.coeffs[TERMS - 1] },
            _ => {}
        }
        s
    }

    fn of_expansions(&mut self) -> Call {
        let s = self.series();
        let t = if self.random.below(3) == 0 { s } else { self.series() };
        match self.random.below(36) {
            0..=1 => Call::TaylorFromCoefficients(s),
            2..=3 => Call::TaylorOrder(s),
            4..=6 => Call::TaylorCoeff(s, self.random.index(s.order)),
            7..=9 => Call::TaylorDerivative(s, self.random.index(s.order)),
            10..=12 => Call::TaylorNeg(s),
            13..=15 => Call::TaylorExp(s),
            16..=18 => Call::TaylorLog(s),
            19..=20 => Call::TaylorPow(s, self.random.exponent()),
            21..=23 => Call::TaylorAdd(s, t),
            24..=25 => Call::TaylorSub(s, t),
            26..=28 => Call::TaylorMul(s, t),
            29..=31 => Call::TaylorDiv(s, t),
            32..=33 => Call::TaylorMax(s, t),
            _ => Call::TaylorSubst(s, t),
        }
    }

    fn of_expression(&mut self, root: u64) -> Call {
        let (var, order) = (self.random.variable(), self.random.order());
        match self.random.below(5) {
            0 => Call::TaylorVar { x: root, order },
            1 | 2 => Call::TaylorCoeffs { root, var, order },
            _ => {
                let point = if self.random.below(3) > 0 { self.random.below(7) as i64 - 3 } else { self.random.literal() };
                Call::TaylorCoeffsAt { root, var, point, order }
            }
        }
    }

    fn step(&mut self) {
        let (a, b) = (self.node(), self.node());
        let call = match self.random.below(34) {
            0..=2 => self.valued(a),
            3..=4 => self.put_out(a),
            5..=6 => self.read(a),
            7 => return self.powers(a, b),
            8 => {
                assert!(file::is_pool(&self.tables().0, &self.tables().1, self.count()));
                return self.check(0);
            }
            9..=15 => self.of_expansions(),
            16..=19 => self.of_expression(a),
            20..=21 => return self.strips(a),
            _ => self.building(a, b),
        };
        self.call(call);
    }

    /// Both tables whole.
    fn tables(&self) -> (Vec<u8>, Vec<u64>) {
        let mut entries = oracle::entries();
        entries.resize(LIMIT, (0, 0));
        entries.into_iter().unzip()
    }

    /// A pool that breaks a rule, in an entry or in the count, and calls on it; then it is as before.
    fn damaged(&mut self) {
        let (mut kinds, mut words) = self.tables();
        let count = self.count();
        let i = match self.random.below(3) {
            0 => self.random.below(LIMIT as u64),
            1 => (count + self.random.below(2)).min(LIMIT as u64 - 1),
            _ => self.random.below(count.max(1)),
        } as usize;
        let before = (kinds[i], words[i]);
        let mut changed = count;
        match self.random.below(6) {
            0 => changed = self.random.one_of(&[count + 1, count.wrapping_sub(1), LIMIT as u64 + 1, u64::MAX]),
            1 => kinds[i] = self.random.below(12) as u8,
            2 => words[i] ^= 1 << self.random.below(64),
            3 => words[i] = words[i].wrapping_add(1 << 32),
            _ => words[i] = self.random.next(),
        }
        self.put_entry(i as u64, (kinds[i], words[i]));
        self.set_count(changed);
        if file::is_pool(&kinds, &words, changed) {
            self.check(0);
        } else {
            self.check(1);
            self.calls_on_damaged();
        }
        self.put_entry(i as u64, before);
        self.set_count(count);
    }

    fn calls_on_damaged(&mut self) {
        let node = self.node();
        let s = Series { order: self.random.order(), coeffs: [node; TERMS] };
        let var = self.random.variable();
        let all = self.random.below(8) == 0;
        for call in damage::each_call(node, var, s) {
            if all || self.random.below(8) == 0 {
                self.refused_by_one(&call);
            }
        }
    }

    /// Every rule is met, and every outcome that an operation can have, and no other.
    fn complete(&self) {
        for (name, outcomes) in &self.met.calls {
            let some: Vec<String> = outcomes.iter().map(|(number, n)| format!("{number}: {n}")).collect();
            eprintln!("{name}: {}", some.join(", "));
        }
        assert_eq!(self.met.outcomes().collect::<BTreeSet<_>>(), report::outcomes().collect(), "the outcomes met, and those on the list");
        oracle::RULES.iter().for_each(|rule| assert!(self.met.rules.contains_key(rule), "rule {rule} is not met"));
    }
}

include!("wrong.rs");
include!("cases.rs");
