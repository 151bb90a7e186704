//! The examples of document 01, the tests of the Rust whose numbers are whole, examples of docs/DIFFERENCES.md and of the requests, by name, on both sides.
use crate::both::Both;
use crate::call::{Answer, Call, Given, Series};
use crate::counted::{self, LIMIT};
use crate::number::{Number, F64};
use crate::ppl;
use crate::symbolic::SymGenFun;
use crate::univariate_taylor::{TaylorExpansion, TESTS};
use crate::{factorial_examples, strip_examples, whole};
use std::panic::{catch_unwind, AssertUnwindSafe};
use Call::*;

pub fn node(both: &mut Both, call: Call) -> u64 {
    match both.call(&call) {
        Ok(Given::Number(node)) => node,
        answer => panic!("{call:?} answered {answer:?}"),
    }
}

fn expansion(both: &mut Both, call: Call) -> Series {
    match both.call(&call) {
        Ok(Given::Expansion(s)) => s,
        answer => panic!("{call:?} answered {answer:?}"),
    }
}

pub fn text(both: &mut Both, root: u64) -> String {
    match both.call(&Print { root, room: 65_535 }) {
        Ok(Given::Bytes(bytes)) => String::from_utf8(bytes).expect("letters and digits"),
        answer => panic!("a text: {answer:?}"),
    }
}

/// The texts of an expansion's entries, one space between.
fn texts(both: &mut Both, s: Series) -> String {
    s.nodes().iter().map(|i| text(both, *i)).collect::<Vec<_>>().join(" ")
}

/// The values of an expansion's entries.
fn values(both: &mut Both, s: Series) -> Vec<f64> {
    s.nodes().iter().map(|root| f64::from_bits(node(both, Evaluate(*root, vec![])))).collect()
}

pub fn x0(both: &mut Both) -> u64 {
    node(both, Var(0))
}

pub fn lit(both: &mut Both, z: i64) -> u64 {
    node(both, Lit(z))
}

/// x1 under so many nested Mul, "each with the left part literal 2", times x0.
fn nested(both: &mut Both, levels: u64) -> Answer {
    let (x0, two) = (x0(both), lit(both, 2));
    let mut top = node(both, Var(1));
    for _ in 0..levels {
        top = both.raw(4, two + (top << 32));
    }
    both.call(&Mul(top, x0))
}

/// (x1 × x0) × x0^exponent
fn power(both: &mut Both, exponent: u32) -> Answer {
    let (x0, x1) = (x0(both), node(both, Var(1)));
    let (product, power) = (node(both, Mul(x1, x0)), node(both, Pow(x0, exponent)));
    both.call(&Mul(product, power))
}

fn full_pool(both: &mut Both) -> (u64, u64) {
    let given = (x0(both), lit(both, 0));
    both.fill(LIMIT);
    given
}

fn at(both: &mut Both, root: u64, point: i64) -> String {
    let s = expansion(both, TaylorCoeffsAt { root, var: 0, point, order: 2 });
    texts(both, s)
}

pub type Example = (&'static str, fn(&mut Both));

/// Document 01, "Examples", in its order; * marks those that are proved too.
const EXAMPLES: [Example; 20] = [
    ("* 2 + (x0 + 1) is `a + 3`", |b| {
        let (x0, one, two) = (x0(b), lit(b, 1), lit(b, 2));
        let sum = node(b, Add(x0, one));
        let sum = node(b, Add(two, sum));
        assert_eq!(text(b, sum), "a + 3");
    }),
    ("* (x0 + 1) + 2 is `a + 1 + 2`", |b| {
        let (x0, one, two) = (x0(b), lit(b, 1), lit(b, 2));
        let sum = node(b, Add(x0, one));
        let sum = node(b, Add(sum, two));
        assert_eq!(text(b, sum), "a + 1 + 2");
    }),
    ("* (x0 × x0) × x0 is `a*a^2`", |b| {
        let x0 = x0(b);
        let product = node(b, Mul(x0, x0));
        let product = node(b, Mul(product, x0));
        assert_eq!(text(b, product), "a*a^2");
    }),
    ("x0 × 3 is `3*a`", |b| {
        let (x0, three) = (x0(b), lit(b, 3));
        let product = node(b, Mul(x0, three));
        assert_eq!(text(b, product), "3*a");
    }),
    ("* x0 := 2 in x0 × x1 gives `2*b`", |b| {
        let (x0, x1, value) = (x0(b), node(b, Var(1)), lit(b, 2));
        let root = node(b, Mul(x0, x1));
        let root = node(b, SubstituteVar { root, var: 0, value });
        assert_eq!(text(b, root), "2*b");
    }),
    ("* `derive` of x0^3 is `3*a^2`", |b| {
        let x0 = x0(b);
        let root = node(b, Pow(x0, 3));
        let root = node(b, Derive { root, var: 0 });
        assert_eq!(text(b, root), "3*a^2");
    }),
    ("* of x0/x1 by x0, `-1*b/b^2`", |b| {
        let (x0, x1) = (x0(b), node(b, Var(1)));
        let root = node(b, Div(x0, x1));
        let root = node(b, Derive { root, var: 0 });
        assert_eq!(text(b, root), "-1*b/b^2");
    }),
    ("* order 2: x0 × x0 at 3: 9, 6, 1", |b| {
        let x0 = x0(b);
        let root = node(b, Mul(x0, x0));
        assert_eq!(at(b, root, 3), "9 6 1");
    }),
    ("* order 2: log x0 at 1: 0, 1, -1/2", |b| {
        let x0 = x0(b);
        let root = node(b, Log(x0));
        assert_eq!(at(b, root, 1), "0 1 -1/2");
    }),
    ("* order 2: exp x0 at 0: 1, 1, 1/2", |b| {
        let x0 = x0(b);
        let root = node(b, Exp(x0));
        assert_eq!(at(b, root, 0), "1 1 1/2");
    }),
    ("* `pow` of literal 0 by 0 is 1", |b| {
        let zero = lit(b, 0);
        let root = node(b, Pow(zero, 0));
        assert_eq!(text(b, root), "1");
    }),
    ("* exp(1): 11", |b| {
        let one = lit(b, 1);
        assert_eq!(b.call(&Exp(one)), Err(11));
    }),
    ("9,007,199,254,740,991 + 1: 12", |b| {
        let (most, one) = (lit(b, whole::MAX), lit(b, 1));
        assert_eq!(b.call(&Add(most, one)), Err(12));
    }),
    ("as a given literal, 9,007,199,254,740,992: 4", |b| assert_eq!(b.call(&Lit(9_007_199_254_740_992)), Err(4))),
    ("(x1 × x0) × x0^4294967294 gives exponent 4,294,967,295", |b| {
        let Ok(Given::Number(root)) = power(b, 4_294_967_294) else { panic!("refused") };
        assert_eq!(text(b, root), "b*a^4294967295");
    }),
    ("from x0^4294967295: 13", |b| assert_eq!(power(b, 4_294_967_295), Err(13))),
    ("x1 under 199 nested Mul, times x0: accepted; under 200: 14", |b| {
        assert!(nested(b, 199).is_ok());
        assert_eq!(nested(b, 200), Err(14));
    }),
    ("count 4,096: x0 + 0 gives x0; x0 × 0 is 18", |b| {
        let (x0, zero) = full_pool(b);
        assert_eq!(b.call(&Add(x0, zero)), Ok(Given::Number(x0)));
        assert_eq!(b.call(&Mul(x0, zero)), Err(18));
    }),
    ("1/3 as a double has bits 3FD5555555555555", |b| {
        let (one, three) = (lit(b, 1), lit(b, 3));
        let root = node(b, Div(one, three));
        assert_eq!(b.call(&Evaluate(root, vec![])), Ok(Given::Number(0x3fd5_5555_5555_5555)));
    }),
    ("* by residues 1/2 is 1,073,741,824", |b| {
        let (one, two) = (lit(b, 1), lit(b, 2));
        let root = node(b, Div(one, two));
        assert_eq!(b.call(&EvaluateResidue(root, vec![])), Ok(Given::Number(1_073_741_824)));
    }),
];

/// `TaylorExpansion::var` of a literal, as in the tests.
fn var(both: &mut Both, z: i64, order: u64) -> Series {
    let x = lit(both, z);
    expansion(both, TaylorVar { x, order })
}

fn one(both: &mut Both) -> Series {
    Series::constant(lit(both, 1))
}

/// src/univariate_taylor.rs: each of its tests whose numbers are whole, step for step, and the values of the coefficients that it names. The rest of
/// test_division and test_division_constant, and test_taylor_e_x_squared_1, have other numbers; test_taylor_expansion_of_coeff is of an operation that
/// document 01 leaves out.
const WHOLE_TESTS: [Example; 6] = [
    ("test_subst", |b| {
        let (x, y) = (var(b, 1, 2), var(b, 2, 2));
        let s = expansion(b, TaylorSubst(x, y));
        assert_eq!(values(b, s), [3.0, 1.0, 0.0]);
        let (x2, y2) = (expansion(b, TaylorMul(x, x)), expansion(b, TaylorMul(y, y)));
        let s = expansion(b, TaylorSubst(x2, y2));
        assert_eq!(values(b, s), [25.0, 40.0, 26.0]);
    }),
    ("test_division", |b| {
        let (x, one) = (var(b, 0, 9), one(b));
        let divisor = expansion(b, TaylorSub(x, one));
        let s = expansion(b, TaylorDiv(x, divisor));
        assert_eq!(values(b, s), [0.0, -1.0, -1.0, -1.0, -1.0, -1.0, -1.0, -1.0, -1.0, -1.0]);
    }),
    ("test_division_constant", |b| {
        let (x, one) = (var(b, 0, 9), one(b));
        let divisor = expansion(b, TaylorSub(x, one));
        let s = expansion(b, TaylorDiv(one, divisor));
        assert_eq!(values(b, s), [-1.0; 10]);
    }),
    ("test_log, log of 1 + 2ε + 3ε^2 and back", |b| {
        let s = Series::list(&[lit(b, 1), lit(b, 2), lit(b, 3)]);
        let log = expansion(b, TaylorLog(s));
        assert_eq!(values(b, log), [0.0, 2.0, 1.0]);
        let back = expansion(b, TaylorExp(log));
        assert_eq!(values(b, back), [1.0, 2.0, 3.0]);
    }),
    ("test_log, log of x and back", |b| {
        let x = var(b, 1, 4);
        let log = expansion(b, TaylorLog(x));
        let back = expansion(b, TaylorExp(log));
        assert_eq!(values(b, back), [1.0, 1.0, 0.0, 0.0, 0.0]);
    }),
    ("test_log, exp of x and back, which needs exp(1): 11", |b| {
        let x = var(b, 1, 4);
        assert_eq!(b.call(&TaylorExp(x)), Err(11));
    }),
];

type Own = SymGenFun<F64>;

/// The Rust over its own `F64`; what it made is forgotten. None where it panics.
fn own<T>(work: impl FnOnce() -> T) -> Option<T> {
    let before = counted::count();
    let hook = std::panic::take_hook();
    std::panic::set_hook(Box::new(|_| {}));
    let given = catch_unwind(AssertUnwindSafe(work));
    std::panic::set_hook(hook);
    counted::forget_from(before);
    given.ok()
}

fn own_lit(x: f64) -> Own {
    Own::lit(x.into())
}

fn own_var(v: usize) -> Own {
    Own::var(ppl::Var(v))
}

/// The value of an expression in x0.
fn own_value(root: Own, x: f64) -> u64 {
    let x = std::hint::black_box(x);
    root.evaluate_var(ppl::Var(0), F64::from(x)).to_f64().to_bits()
}

fn own_text(root: Own) -> String {
    root.to_string()
}

/// The bits of an expression's value.
fn bits(both: &mut Both, call: Call, values: &[f64]) -> u64 {
    let root = node(both, call);
    node(both, Evaluate(root, values.to_vec()))
}

/// docs/DIFFERENCES.md: the engine's answer, and the Rust's over `F64`.
const DIFFERENCES: [Example; 15] = [
    ("(2^53 - 1) + 2: 12; the Rust rounds it to 2^53", |b| {
        let (most, two) = (lit(b, whole::MAX), lit(b, 2));
        assert_eq!(b.call(&Add(most, two)), Err(12));
        assert_eq!(own(|| own_text(own_lit(9_007_199_254_740_991.0) + own_lit(2.0))).unwrap(), "9007199254740992.0");
    }),
    ("exp(1): 11; the Rust computes a literal", |b| {
        let one = lit(b, 1);
        assert_eq!(b.call(&Exp(one)), Err(11));
        assert_eq!(own(|| own_text(own_lit(1.0).exp())).unwrap(), "2.718281828459045");
    }),
    ("exp(x0) and log(x0) at 1: 16; the Rust computes them", |b| {
        let x0 = x0(b);
        for call in [Exp(x0), Log(x0)] {
            let root = node(b, call);
            assert_eq!(b.call(&Evaluate(root, vec![1.0])), Err(16));
        }
        assert_eq!(own(|| own_value(own_var(0).exp(), 1.0)), Some(1f64.exp().to_bits()));
        assert_eq!(own(|| own_value(own_var(0).log(), 1.0)), Some(0));
    }),
    ("1.1^4: 3FF76CF41F212D79; multiplied from the left ..7A", |b| {
        let x0 = x0(b);
        assert_eq!(bits(b, Pow(x0, 4), &[1.1]), 0x3ff7_6cf4_1f21_2d79);
        let x = std::hint::black_box(1.1f64);
        assert_eq!((((x * x) * x) * x).to_bits(), 0x3ff7_6cf4_1f21_2d7a);
    }),
    ("1^2147483648 is 1; F64's pow panics", |b| {
        let x0 = x0(b);
        assert_eq!(bits(b, Pow(x0, 1 << 31), &[1.0]), 1f64.to_bits());
        assert_eq!(own(|| F64::from(1.0).pow(1 << 31)), None);
        assert!(own(|| F64::from(1.0).pow((1 << 31) - 1)).is_some());
    }),
    ("max(2, NaN) is 2; F64's is NaN", |b| {
        let (x0, two) = (x0(b), lit(b, 2));
        assert_eq!(bits(b, Max(two, x0), &[f64::NAN]), 2f64.to_bits());
        assert!(own(|| f64::from_bits(own_value(own_lit(2.0).max(&own_var(0)), f64::NAN))).unwrap().is_nan());
    }),
    ("x0 at NaN 7FF0000000000001: 7FF8000000000000; the Rust hands on its bits", |b| {
        let (x0, nan) = (x0(b), f64::from_bits(0x7ff0_0000_0000_0001));
        assert_eq!(b.call(&Evaluate(x0, vec![nan])), Ok(Given::Number(0x7ff8_0000_0000_0000)));
        assert_eq!(own(|| own_value(own_var(0), nan)), Some(0x7ff0_0000_0000_0001));
    }),
    ("94,906,266 to the power 1 is itself; the square after it leaves the literal range", |b| {
        for (z, square) in [(94_906_265, Ok(())), (94_906_266, Err(12))] {
            let z = lit(b, z);
            assert_eq!(b.call(&TaylorPow(Series::constant(z), 1)), Ok(Given::Expansion(Series::constant(z))));
            assert_eq!(b.call(&Mul(z, z)).map(|_| ()), square);
        }
    }),
    ("a Max derived, expanded or printed: 10; the Rust panics", |b| {
        let (x0, x1) = (x0(b), node(b, Var(1)));
        let root = node(b, Max(x0, x1));
        for call in [Derive { root, var: 0 }, TaylorCoeffs { root, var: 0, order: 0 }, Print { root, room: 65_535 }] {
            assert_eq!(b.call(&call), Err(10));
        }
        let max = || own_var(0).max(&own_var(1));
        assert!(own(|| max().derive(ppl::Var(0))).is_none() && own(|| max().taylor_coeffs(ppl::Var(0), 0)).is_none() && own(|| own_text(max())).is_none());
    }),
    ("`max` of a list: 10; the Rust panics", |b| {
        let x0 = x0(b);
        assert_eq!(b.call(&TaylorMax(Series::list(&[x0]), Series::list(&[x0]))), Err(10));
        assert!(own(|| TaylorExpansion::var(own_var(0), 0).max(&TaylorExpansion::var(own_var(0), 0))).is_none());
    }),
    ("coefficient 1 of a list of one: 5; the Rust panics", |b| {
        let x0 = x0(b);
        assert_eq!(b.call(&TaylorCoeff(Series::list(&[x0]), 1)), Err(5));
        assert!(own(|| TaylorExpansion::var(own_var(0), 0).coeff(1)).is_none());
    }),
    ("`subst` of lists of 1 and 2: 5; the Rust panics", |b| {
        let x0 = x0(b);
        assert_eq!(b.call(&TaylorSubst(Series::list(&[x0]), Series::list(&[x0, x0]))), Err(5));
        assert!(own(|| TaylorExpansion::var(own_var(0), 0).subst(&TaylorExpansion::var(own_var(0), 1))).is_none());
    }),
    ("order 25, lists of 0 and 26: 5; the Rust takes them", |b| {
        let x = x0(b);
        assert_eq!(b.call(&TaylorVar { x, order: 25 }), Err(5));
        assert_eq!(own(|| TaylorExpansion::var(own_var(0), 25).order()), Some(26));
        for order in [0, 26] {
            assert_eq!(b.call(&TaylorOrder(Series { order, coeffs: [x; 25] })), Err(5));
            assert_eq!(own(|| TaylorExpansion::from_coefficients(vec![own_var(0); order as usize]).order() as u64), Some(order));
        }
    }),
    ("variable 65,536: 3; the Rust prints x_65536", |b| {
        assert_eq!(b.call(&Var(65_536)), Err(3));
        assert_eq!(own(|| own_text(own_var(65_536))).unwrap(), "x_65536");
    }),
    ("19! x0 as a derivative: 12; the Rust rounds it", |b| {
        let x0 = x0(b);
        assert_eq!(b.call(&TaylorDerivative(Series::list(&[x0; 25]), 19)), Err(12));
        assert_eq!(own(|| own_text(TaylorExpansion::from_coefficients(vec![own_var(0); 20]).derivative(19))).unwrap(), "1.21645100408832e17*a");
    }),
];

fn run(both: &mut Both, examples: &[Example]) {
    for (name, example) in examples {
        println!("  {name}");
        both.forget_from(0);
        example(both);
    }
    both.forget_from(0);
}

pub fn all() {
    println!("The examples of document 01, on both sides:");
    let mut both = Both::new();
    run(&mut both, &EXAMPLES);
    println!("The Rust's own tests over its F64, and those whose numbers are whole on both sides:");
    for (name, test) in TESTS {
        println!("  {name} over F64");
        test();
    }
    run(&mut both, &WHOLE_TESTS);
    println!("Examples of docs/DIFFERENCES.md, on both sides:");
    run(&mut both, &DIFFERENCES);
    println!("C-15, on both sides:");
    run(&mut both, &factorial_examples::DERIVATIVES);
    println!("C-20, on both sides:");
    run(&mut both, &strip_examples::MAKING);
    run(&mut both, &strip_examples::RUNNING);
    println!("{} calls for these, as the Rust's", both.met.calls_made());
}
