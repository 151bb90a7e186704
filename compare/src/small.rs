//! All small shapes: every constructor on every two of the nodes that one constructor makes of a few leaves, and further calls on each result;
//! every operation on every two short expansions of those leaves.
use crate::both::Both;
use crate::call::{Call, Given, Series};
use crate::counted;
use crate::symbolic::oracle;
use crate::whole;
use std::collections::BTreeSet;

const LEAVES: [Call; 7] = [Call::Var(0), Call::Var(1), Call::Lit(0), Call::Lit(1), Call::Lit(-1), Call::Lit(2), Call::Lit(whole::MAX)];
const X0: u64 = 0;
const X1: u64 = 1;
const TWO: u64 = 5;
const EXPONENTS: [u32; 5] = [0, 1, 2, 3, u32::MAX];

fn of_two(a: u64, b: u64) -> [Call; 4] {
    [Call::Add(a, b), Call::Mul(a, b), Call::Div(a, b), Call::Max(a, b)]
}

fn of_one(a: u64) -> Vec<Call> {
    let mut calls = vec![Call::Neg(a), Call::Exp(a), Call::Log(a)];
    calls.extend(EXPONENTS.iter().map(|e| Call::Pow(a, *e)));
    calls
}

/// Derivation, substitution, printing, evaluation and expansion of a result, and one constructor more with x0 or 2.
fn further(root: u64) -> Vec<Call> {
    let mut calls = vec![
        Call::Derive { root, var: 0 },
        Call::SubstituteVar { root, var: 0, value: X1 },
        Call::SubstituteVar { root, var: 0, value: TWO },
        Call::Print { root, room: 65_535 },
        Call::Evaluate(root, vec![2.0, 0.0]),
        Call::EvaluateResidue(root, vec![2, 0]),
        Call::TaylorCoeffs { root, var: 0, order: 2 },
        Call::TaylorCoeffsAt { root, var: 0, point: 1, order: 2 },
        Call::Exp(root),
        Call::Log(root),
    ];
    for leaf in [X0, TWO] {
        calls.extend([Call::Add(root, leaf), Call::Add(leaf, root), Call::Mul(root, leaf), Call::Mul(leaf, root)]);
    }
    calls
}

/// Makes a call, what follows on its result, and the result's strip, which is run; what was appended is forgotten.
fn tried(both: &mut Both, call: &Call) {
    let before = counted::count();
    if let Ok(Given::Number(root)) = both.call(call) {
        let made = counted::count();
        for call in further(root) {
            let _ = both.call(&call);
            both.forget_from(made);
        }
        let _ = both.strip_and_run(root, &[2.0, f64::NAN]);
    }
    both.forget_from(before);
}

/// A leaf, or one constructor on leaves.
type Recipe = Option<Call>;

/// The node that a recipe makes.
fn made(both: &mut Both, leaf: usize, recipe: &Recipe) -> u64 {
    match recipe {
        None => leaf as u64,
        Some(call) => match both.call(call) {
            Ok(Given::Number(node)) => node,
            answer => panic!("{call:?} answered {answer:?}, and before it was accepted"),
        },
    }
}

/// The leaves, and each different result of one constructor on them.
fn recipes(both: &mut Both) -> Vec<(usize, Recipe)> {
    let n = LEAVES.len() as u64;
    let mut calls: Vec<Call> = (0..n).flat_map(|a| (0..n).flat_map(move |b| of_two(a, b))).collect();
    calls.extend((0..n).flat_map(of_one));
    let mut found: Vec<(usize, Recipe)> = (0..LEAVES.len()).map(|leaf| (leaf, None)).collect();
    let mut seen = BTreeSet::new();
    for call in calls {
        tried(both, &call);
        if let Ok(Given::Number(node)) = both.call(&call) {
            let new: Vec<_> = (LEAVES.len()..counted::count()).map(oracle::entry).collect();
            if node >= n && seen.insert((node, new)) {
                found.push((0, Some(call)));
            }
        }
        both.forget_from(LEAVES.len());
    }
    found
}

/// Every two of the recipes' nodes under every constructor.
fn expressions(both: &mut Both) -> usize {
    let recipes = recipes(both);
    for (leaf, p) in &recipes {
        let a = made(both, *leaf, p);
        let after_one = counted::count();
        // a node with itself: what one number is, and not only one shape
        of_two(a, a).iter().chain(&of_one(a)).for_each(|call| tried(both, call));
        for (leaf, q) in &recipes {
            let b = made(both, *leaf, q);
            of_two(a, b).iter().for_each(|call| tried(both, call));
            both.forget_from(after_one);
        }
        both.forget_from(LEAVES.len());
    }
    recipes.len()
}

/// Constants, and lists of one and two entries, over all leaves, and lists of three over x0, 0, 1 and 2.
fn short_expansions() -> Vec<Series> {
    let n = LEAVES.len() as u64;
    let mut found: Vec<Series> = (0..n).flat_map(|a| [Series::constant(a), Series::list(&[a])]).collect();
    found.extend((0..n).flat_map(|a| (0..n).map(move |b| Series::list(&[a, b]))));
    let some = [X0, 2, 3, TWO];
    for a in some {
        found.extend(some.iter().flat_map(|b| some.iter().map(move |c| Series::list(&[a, *b, *c]))));
    }
    found
}

fn on_expansion(s: Series) -> Vec<Call> {
    use Call::*;
    let mut calls = vec![TaylorFromCoefficients(s), TaylorOrder(s), TaylorNeg(s), TaylorExp(s), TaylorLog(s)];
    calls.extend(EXPONENTS.iter().map(|e| TaylorPow(s, *e)));
    calls.extend((0..4).flat_map(|i| [TaylorCoeff(s, i), TaylorDerivative(s, i)]));
    calls
}

/// Every operation on every short expansion, and on every two.
fn expansions(both: &mut Both) -> usize {
    let short = short_expansions();
    let before = counted::count();
    for s in &short {
        for call in on_expansion(*s) {
            let _ = both.call(&call);
            both.forget_from(before);
        }
        for t in &short {
            use Call::*;
            for call in [TaylorAdd(*s, *t), TaylorSub(*s, *t), TaylorMul(*s, *t), TaylorDiv(*s, *t), TaylorMax(*s, *t), TaylorSubst(*s, *t)] {
                let _ = both.call(&call);
                both.forget_from(before);
            }
        }
    }
    short.len()
}

pub fn all() {
    let mut both = Both::new();
    LEAVES.iter().for_each(|leaf| {
        both.call(leaf).expect("a leaf");
    });
    let n = expressions(&mut both);
    let calls = both.met.calls_made();
    println!("{n} small expressions, every two of them under every constructor: {calls} calls, as the Rust's");
    let n = expansions(&mut both);
    let calls = both.met.calls_made() - calls;
    println!("{n} short expansions, every two of them under every operation: {calls} calls, as the Rust's");
    counted::forget_from(0);
}
