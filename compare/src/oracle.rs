// Included in the module of src/symbolic.rs, where its private names are in reach: the Rust's operations by node number.
use crate::counted;
use crate::number::F64;
use crate::values::{self, Double, Residue, MODULUS};
use crate::whole::Whole;
use std::cell::Cell;

type Kind = SymGenFunKind<Whole>;

fn nth(i: u64) -> Rc<Kind> {
    unsafe { Rc::nth(i as usize) }
}

fn wrapped(i: u64) -> SymGenFun<Whole> {
    SymGenFun::new(nth(i))
}

pub fn lit(z: i64) -> u64 {
    Kind::lit(Whole(z)).number() as u64
}
pub fn var(v: u64) -> u64 {
    Kind::var(Var(v as usize)).number() as u64
}
pub fn add(a: u64, b: u64) -> u64 {
    Kind::add(nth(a), nth(b)).number() as u64
}
pub fn mul(a: u64, b: u64) -> u64 {
    Kind::mul(nth(a), nth(b)).number() as u64
}
pub fn div(a: u64, b: u64) -> u64 {
    Kind::div(nth(a), nth(b)).number() as u64
}
pub fn max(a: u64, b: u64) -> u64 {
    Kind::max(nth(a), nth(b)).number() as u64
}
pub fn neg(a: u64) -> u64 {
    Kind::neg(nth(a)).number() as u64
}
pub fn exp(a: u64) -> u64 {
    Kind::exp(nth(a)).number() as u64
}
pub fn log(a: u64) -> u64 {
    Kind::log(nth(a)).number() as u64
}
pub fn pow(a: u64, e: u32) -> u64 {
    Kind::pow(nth(a), e).number() as u64
}

/// The refusal that document 01 gives for a Max that is derived, expanded or printed.
fn has_max(root: &Rc<Kind>, seen: &mut Vec<bool>) -> bool {
    let i = root.number() as usize;
    if seen[i] {
        return false;
    }
    seen[i] = true;
    match root.as_ref() {
        Variable(_) | Lit(_) => false,
        Add(a, b) | Mul(a, b) | Div(a, b) => has_max(a, seen) || has_max(b, seen),
        Exp(a) | Log(a) | Pow(a, _) => has_max(a, seen),
        Max(..) => true,
    }
}

pub fn reaches_max(i: u64) -> bool {
    has_max(&nth(i), &mut vec![false; counted::count()])
}

pub fn substitute_var(root: u64, v: u64, value: u64) -> u64 {
    wrapped(root).substitute_var(Var(v as usize), wrapped(value)).root.number() as u64
}
pub fn derive(root: u64, v: u64) -> u64 {
    wrapped(root).derive(Var(v as usize)).root.number() as u64
}

thread_local! {
    static OVER_F64: Cell<u64> = const { Cell::new(0) };
}

/// How many evaluations ran over the Rust's own `F64` as well.
pub fn evaluations_over_f64() -> u64 {
    OVER_F64.get()
}

fn evaluate_over<S: Number>(root: u64, values: &[f64], number: impl Fn(f64) -> S) -> S {
    wrapped(root).evaluate(|z| number(z.0 as f64), |v| match values.get(v.id()) {
        Some(x) => number(*x),
        None => counted::refuse(15),
    })
}

/// By document 01's arithmetic, and by the Rust's own `F64` where that must give the same.
pub fn evaluate(root: u64, values: &[f64]) -> f64 {
    let (Double(given), agrees) = values::with_agreement(|| evaluate_over(root, values, Double));
    if agrees {
        let own = evaluate_over(root, values, F64::from).to_f64();
        assert!(own.to_bits() == given.to_bits() || own.is_nan() && given.is_nan(), "F64 gives {own:e} and document 01's rules {given:e}");
        OVER_F64.set(OVER_F64.get() + 1);
    }
    given
}

pub fn evaluate_residue(root: u64, values: &[u32]) -> u64 {
    wrapped(root).evaluate(|z| Residue(z.0.rem_euclid(MODULUS as i64) as u64), |v| match values.get(v.id()) {
        Some(x) => Residue(*x as u64),
        None => counted::refuse(15),
    }).0
}

/// A text that gives up once it has more than 65,535 bytes.
struct Limited(Vec<u8>);

impl std::fmt::Write for Limited {
    fn write_str(&mut self, s: &str) -> std::fmt::Result {
        self.0.extend_from_slice(s.as_bytes());
        if self.0.len() > 65_535 { Err(std::fmt::Error) } else { Ok(()) }
    }
}

/// The text, or 10 or 19.
pub fn print(root: u64) -> Vec<u8> {
    if reaches_max(root) {
        counted::refuse(10);
    }
    let mut out = Limited(Vec::new());
    if std::fmt::write(&mut out, format_args!("{}", wrapped(root))).is_err() {
        counted::refuse(19);
    }
    out.0
}

/// Kind and word of a node, by document 01's table.
pub fn entry(i: usize) -> (u8, u64) {
    let pair = |a: &Rc<Kind>, b: u64| a.number() as u64 + (b << 32);
    match nth(i as u64).as_ref() {
        Variable(v) => (1, v.id() as u64),
        Lit(z) => (2, z.0 as u64),
        Add(a, b) => (3, pair(a, b.number() as u64)),
        Mul(a, b) => (4, pair(a, b.number() as u64)),
        Div(a, b) => (5, pair(a, b.number() as u64)),
        Exp(a) => (6, a.number() as u64),
        Log(a) => (7, a.number() as u64),
        Pow(a, n) => (8, pair(a, *n as u64)),
        Max(a, b) => (9, pair(a, b.number() as u64)),
    }
}

/// All nodes.
pub fn entries() -> Vec<(u8, u64)> {
    (0..counted::count()).map(entry).collect()
}

/// The rule of the constructors that applies first to two nodes, by its place in the Rust: what the comparison counts.
pub fn rule_of(op: &str, a: u64, b: u64) -> &'static str {
    let (l, r) = (nth(a), nth(b));
    let lit_in = |k: &Rc<Kind>| matches!(k.as_ref(), Lit(_));
    let exp_in = |k: &Rc<Kind>| matches!(k.as_ref(), Exp(_));
    match op {
        "add" => match (l.as_ref(), r.as_ref()) {
            (Lit(a), _) if a.is_zero() => "add 0 + x",
            (_, Lit(b)) if b.is_zero() => "add x + 0",
            (Lit(_), Lit(_)) => "add literals",
            (Lit(_), Add(_, a)) => if lit_in(a) { "add l + (b + lit)" } else { "add l + (b + a)" },
            (Add(a, _), Lit(_)) => if lit_in(a) { "add (lit + b) + l" } else { "add (a + b) + l" },
            (Add(_, b), Add(_, d)) => match (lit_in(b), lit_in(d)) {
                (true, true) => "add (a + lit) + (c + lit)",
                (true, false) => "add (a + lit) + (c + d)",
                (false, true) => "add (a + b) + (c + lit)",
                (false, false) => "add plain sums",
            },
            _ => "add plain",
        },
        "mul" => {
            match (l.as_ref(), r.as_ref()) {
                (Lit(a), _) if a.is_zero() => return "mul 0 * x",
                (_, Lit(b)) if b.is_zero() => return "mul x * 0",
                (Lit(a), _) if a.is_one() => return "mul 1 * x",
                (_, Lit(b)) if b.is_one() => return "mul x * 1",
                (Exp(_), Exp(_)) => return "mul exps",
                (Lit(_), Lit(_)) => return "mul literals",
                (Lit(_), Mul(b1, _)) | (Mul(b1, _), Lit(_)) if lit_in(b1) => return "mul lit * (lit * b)",
                _ => {}
            }
            match (l.as_ref(), r.as_ref()) {
                (Mul(a1, a2), Exp(_)) | (Exp(_), Mul(a1, a2)) => {
                    if exp_in(a2) {
                        return "mul (a * exp) * exp";
                    }
                    if exp_in(a1) {
                        return "mul (exp * a) * exp";
                    }
                }
                (Mul(a1, a2), Mul(b1, b2)) => match (exp_in(a1), exp_in(a2), exp_in(b1), exp_in(b2)) {
                    (true, _, true, _) => return "mul exps 11",
                    (true, _, _, true) => return "mul exps 12",
                    (_, true, true, _) => return "mul exps 21",
                    (_, true, _, true) => return "mul exps 22",
                    _ => {}
                },
                _ => {}
            }
            match (l.as_ref(), r.as_ref()) {
                (Mul(a1, _), Mul(b1, _)) => {
                    if lit_in(a1) && lit_in(b1) {
                        return "mul (lit * a) * (lit * b)";
                    }
                }
                (Mul(a1, _), _) if lit_in(a1) => return "mul (lit * a) * x",
                (_, Mul(b1, _)) if lit_in(b1) => return "mul x * (lit * b)",
                _ => {}
            }
            match (l.as_ref(), r.as_ref()) {
                (Mul(_, a2), _) if same_ref(a2, &r) => return "mul (a * x) * x",
                (Mul(_, a2), Pow(b, _)) if same_ref(a2, b) => return "mul (a * x) * x^n",
                (Mul(_, a2), Pow(b, _)) => if let Pow(a21, _) = a2.as_ref() {
                    if same_ref(a21, b) {
                        return "mul (a * x^m) * x^n";
                    }
                },
                _ => {}
            }
            if lit_in(&r) { "mul x * lit" } else { "mul plain" }
        }
        "div" => match (l.as_ref(), r.as_ref()) {
            (Lit(a), _) if a.is_zero() => "div 0 / x",
            (_, Lit(b)) if b.is_one() => "div x / 1",
            _ => "div plain",
        },
        "exp" => match l.as_ref() {
            Lit(a) if a.is_zero() => "exp 0",
            Lit(_) => "exp literal",
            Add(_, b) if lit_in(b) => "exp (a + lit)",
            _ => "exp plain",
        },
        "log" => match l.as_ref() {
            Lit(a) if a.is_one() => "log 1",
            Lit(_) => "log literal",
            Mul(a, _) if lit_in(a) => "log (lit * b)",
            _ => "log plain",
        },
        _ => "other",
    }
}

pub const RULES: &[&str] = &[
    "add 0 + x", "add x + 0", "add literals", "add l + (b + lit)", "add l + (b + a)", "add (lit + b) + l", "add (a + b) + l",
    "add (a + lit) + (c + lit)", "add (a + lit) + (c + d)", "add (a + b) + (c + lit)", "add plain sums", "add plain",
    "mul 0 * x", "mul x * 0", "mul 1 * x", "mul x * 1", "mul exps", "mul literals", "mul lit * (lit * b)",
    "mul (a * exp) * exp", "mul (exp * a) * exp", "mul exps 11", "mul exps 12", "mul exps 21", "mul exps 22",
    "mul (lit * a) * (lit * b)", "mul (lit * a) * x", "mul x * (lit * b)", "mul (a * x) * x", "mul (a * x) * x^n",
    "mul (a * x^m) * x^n", "mul x * lit", "mul plain", "div 0 / x", "div x / 1", "div plain", "exp 0", "exp literal",
    "exp (a + lit)", "exp plain", "log 1", "log literal", "log (lit * b)", "log plain",
];

/// A node as it is, by no constructor: kind and word as document 01's table has them.
pub fn raw(kind: u8, word: u64) -> u64 {
    let (a, b) = (word & 0xffff_ffff, word >> 32);
    let node: Kind = match kind {
        1 => Variable(Var(word as usize)),
        2 => Lit(Whole(word as i64)),
        3 => Add(nth(a), nth(b)),
        4 => Mul(nth(a), nth(b)),
        5 => Div(nth(a), nth(b)),
        6 => Exp(nth(word)),
        7 => Log(nth(word)),
        8 => Pow(nth(a), b as u32),
        9 => Max(nth(a), nth(b)),
        _ => unreachable!("no kind {kind}"),
    };
    Rc::new(node).number() as u64
}
