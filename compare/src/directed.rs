//! One call for each refusal that an operation can meet, and one that is accepted, on one pool; and calls for each rule. Nothing here is left to chance.
use crate::both::{Both, Met};
use crate::call::{Call, Series, ENDLESS, TERMS};
use crate::counted::LIMIT;
use crate::file::Entry;
use crate::symbolic::oracle;
use crate::{counted, damage, list, report, whole};
use std::collections::BTreeSet;
use Call::*;

/// The pool's entries, as a file would bring them in, and the nodes that the calls name.
pub struct Pool {
    pub entries: Vec<Entry>,
    x: u64,
    y: u64,
    z: u64,
    zero: u64,
    one: u64,
    minus_one: u64,
    two: u64,
    /// 2^53 - 1
    most: u64,
    /// Exp(1), which no constructor makes: its product with itself asks for exp(2).
    exp: u64,
    square: u64,
    /// x1 × x0^4294967295: its product with x0^2 has too large an exponent.
    power: u64,
    maximum: u64,
    /// 1 / 0
    quotient: u64,
    /// 200 nested nodes over x0: Mul(1, ·), Add(·, 0), Add(0, ·) and Add(·, 1).
    products: u64,
    sums: u64,
    left_sums: u64,
    ones: u64,
    /// Texts of 65,535 and 65,536 bytes.
    longest: u64,
    too_long: u64,
}

fn pair(a: u64, b: u64) -> u64 {
    a + (b << 32)
}

impl Pool {
    fn put(&mut self, kind: u8, word: u64) -> u64 {
        self.entries.push((kind, word));
        self.entries.len() as u64 - 1
    }

    fn mul(&mut self, a: u64, b: u64) -> u64 {
        self.put(4, pair(a, b))
    }

    fn nested(&mut self, node: impl Fn(u64) -> Entry) -> u64 {
        (0..200).fold(self.x, |before, _| {
            let (kind, word) = node(before);
            self.put(kind, word)
        })
    }

    /// So many sums of a node with itself.
    fn doublings(&mut self, levels: u32) -> u64 {
        (0..levels).fold(self.x, |before, _| self.put(3, pair(before, before)))
    }

    /// So many sums of x0 with the one before: one leaf more.
    fn sums_on_the_right(&mut self, sums: u32) -> u64 {
        (0..sums).fold(self.x, |before, _| self.put(3, pair(self.x, before)))
    }

    /// A sum of 2^14 leaves, all of them x0 but the first, which is a literal: 3 × (2^14 - 1) bytes stand between them.
    fn sum_of_leaves(&mut self, literal: u64) -> u64 {
        let mut doubled = self.x;
        let mut sum = self.put(2, literal);
        for _ in 0..14 {
            sum = self.put(3, pair(sum, doubled));
            doubled = self.put(3, pair(doubled, doubled));
        }
        sum
    }

    pub fn new() -> Self {
        let lit = |z: i64| (2, z as u64);
        let leaves = [(1, 0), (1, 1), (1, 2), lit(0), lit(1), lit(-1), lit(2), lit(whole::MAX)];
        let mut p = Pool {
            entries: leaves.to_vec(),
            x: 0, y: 1, z: 2, zero: 3, one: 4, minus_one: 5, two: 6, most: 7,
            exp: 0, square: 0, power: 0, maximum: 0, quotient: 0, products: 0, sums: 0, left_sums: 0, ones: 0, longest: 0, too_long: 0,
        };
        p.exp = p.put(6, p.one);
        p.square = p.put(8, pair(p.x, 2));
        let greatest = p.put(8, pair(p.x, u32::MAX as u64));
        p.power = p.mul(p.y, greatest);
        p.maximum = p.put(9, pair(p.x, p.y));
        p.quotient = p.put(5, pair(p.one, p.zero));
        let (zero, one) = (p.zero, p.one);
        p.products = p.nested(|t| (4, pair(one, t)));
        p.sums = p.nested(|t| (3, pair(t, zero)));
        p.left_sums = p.nested(|t| (3, pair(zero, t)));
        p.ones = p.nested(|t| (3, pair(t, one)));
        p.longest = p.sum_of_leaves(100);
        p.too_long = p.sum_of_leaves(1_000);
        p
    }

    /// Two factors for each refusal of a product.
    fn factors(&self) -> [(u32, u64, u64); 4] {
        [(11, self.exp, self.exp), (12, self.most, self.two), (13, self.power, self.square), (14, self.products, self.y)]
    }
}

/// A call that is to be refused by a number, or accepted where that is 0.
pub type Directed = (u32, Call);

/// Arguments that are refused before the work.
fn of_arguments(p: &Pool) -> Vec<Directed> {
    let (x, none) = (p.x, LIMIT as u64);
    let given = |number: u32, calls: Vec<Call>| calls.into_iter().map(move |call| (number, call));
    let s = Series::list(&[x, none]);
    let empty = Series { order: 0, coeffs: [x; TERMS] };
    let (c, list) = (Series::constant(x), Series::list(&[x, x]));
    let mut calls: Vec<Directed> = given(2, vec![
        Add(none, x), Mul(x, none), Div(none, x), Max(x, none), Neg(none), Exp(none), Log(none), Pow(none, 0),
        SubstituteVar { root: x, var: 0, value: none }, Derive { root: none, var: 0 }, Evaluate(none, vec![]), EvaluateResidue(none, vec![]),
        Print { root: none, room: 0 }, Write { root: none, room: 0 }, Strip { root: none, room: 0 }, TaylorVar { x: none, order: 0 },
        TaylorFromCoefficients(s), TaylorOrder(s),
        TaylorCoeff(s, 0), TaylorDerivative(s, 0), TaylorNeg(s), TaylorExp(s), TaylorLog(s), TaylorPow(s, 0), TaylorAdd(s, c), TaylorSub(c, s),
        TaylorMul(s, c), TaylorDiv(c, s), TaylorMax(s, c), TaylorSubst(c, s), TaylorCoeffs { root: none, var: 0, order: 0 },
        TaylorCoeffsAt { root: none, var: 0, point: 0, order: 0 },
    ]).collect();
    calls.extend(given(3, vec![
        Var(65_536), SubstituteVar { root: x, var: 65_536, value: x }, Derive { root: x, var: 65_536 },
        TaylorCoeffs { root: x, var: 65_536, order: 0 }, TaylorCoeffsAt { root: x, var: 65_536, point: 0, order: 0 },
    ]));
    calls.extend(given(4, vec![Lit(whole::MAX + 1), Lit(-whole::MAX - 1), TaylorCoeffsAt { root: x, var: 0, point: whole::MAX + 1, order: 0 }]));
    calls.extend(given(5, vec![
        TaylorVar { x, order: 25 }, TaylorFromCoefficients(empty), TaylorOrder(empty), TaylorCoeff(list, 2), TaylorDerivative(list, 2), TaylorNeg(empty),
        TaylorExp(empty), TaylorLog(empty), TaylorPow(empty, 0), TaylorAdd(empty, c), TaylorSub(c, empty), TaylorMul(empty, c), TaylorDiv(c, empty),
        TaylorMax(empty, c), TaylorSubst(list, Series::list(&[x])), TaylorCoeffs { root: x, var: 0, order: 25 },
        TaylorCoeffsAt { root: x, var: 0, point: 0, order: 25 },
        TaylorOrder(Series { order: 26, coeffs: [x; TERMS] }), TaylorOrder(Series { order: ENDLESS - 1, coeffs: [x; TERMS] }),
    ]));
    calls.extend(given(6, vec![Evaluate(x, vec![0.0; 65_537]), EvaluateResidue(x, vec![0; 65_537]), EvaluateResidue(x, vec![2_147_483_647])]));
    calls
}

/// Files: too short, an entry that is no node, an entry that the root does not reach.
fn of_files() -> Vec<Directed> {
    let unreached = [&[2, 0, 0, 0, 1, 1][..], &[0; 16]].concat();
    let no_node = [&[1, 0, 0, 0, 0][..], &[0; 8]].concat();
    vec![(7, Read(vec![])), (8, Read(no_node)), (9, Read(unreached))]
}

/// 11 to 14 of the constructors, and 11 and 14 of exp and log.
fn of_constructors(p: &Pool) -> Vec<Directed> {
    let mut calls: Vec<Directed> = p.factors().iter().map(|(number, a, b)| (*number, Mul(*a, *b))).collect();
    calls.extend([
        (12, Add(p.most, p.one)), (14, Add(p.left_sums, p.one)), (11, Exp(p.two)), (14, Exp(p.sums)), (11, Log(p.two)), (14, Log(p.products)),
    ]);
    calls
}

/// The same products are asked by substitution and by derivation, in nodes that are put for it.
fn of_walks(p: &mut Pool) -> Vec<Directed> {
    let mut calls = vec![(10, Derive { root: p.maximum, var: 2 })];
    for (number, a, b) in p.factors() {
        let root = p.mul(a, p.z);
        calls.push((number, SubstituteVar { root, var: 2, value: b }));
        // a × (b × x2)' is a × b
        let b_z = p.mul(b, p.z);
        let root = p.mul(a, b_z);
        calls.push((number, Derive { root, var: 2 }));
    }
    calls
}

/// An expansion makes all nodes of its expression anew by constructors: exp(1), then 2 × (2^53 - 1) × x2, then 200 nested sums + (x0 + x1).
fn of_expressions(p: &mut Pool) -> Vec<Directed> {
    let double = p.mul(p.two, p.z);
    let product = p.mul(p.most, double);
    let sum = p.put(3, pair(p.x, p.y));
    let sums = p.put(3, pair(p.ones, sum));
    let roots = [(10, p.maximum), (11, p.exp), (12, product), (14, sums)];
    let both = |(number, root): (u32, u64)| {
        [(number, TaylorCoeffs { root, var: 2, order: 2 }), (number, TaylorCoeffsAt { root, var: 2, point: 1, order: 2 })]
    };
    roots.into_iter().flat_map(both).collect()
}

fn of_values_and_texts(p: &Pool) -> Vec<Directed> {
    vec![
        (15, Evaluate(p.y, vec![1.0])), (16, Evaluate(p.exp, vec![])), (15, EvaluateResidue(p.y, vec![1])), (16, EvaluateResidue(p.maximum, vec![1, 1])),
        (17, EvaluateResidue(p.quotient, vec![])), (10, Print { root: p.maximum, room: 0 }), (19, Print { root: p.x, room: 0 }),
        (19, Print { root: p.longest, room: 65_534 }), (19, Print { root: p.too_long, room: 65_536 }), (19, Write { root: p.x, room: 12 }),
    ]
}

/// 16, 27 and 19 of a strip, in this order, and at the longest strip; and those that just fit.
fn of_strips(p: &mut Pool) -> (Vec<Directed>, [Call; 2]) {
    let mut doubled = p.x;
    // x0^2 and 2, 4, .., 2^13 further leaves: 65,536 bytes
    let mut sum = p.square;
    for _ in 0..13 {
        doubled = p.put(3, pair(doubled, doubled));
        sum = p.put(3, pair(sum, doubled));
    }
    let longest = p.put(3, pair(doubled, doubled));
    let (deep, high) = (p.put(6, p.left_sums), p.doublings(127));
    let higher = p.put(3, pair(high, high));
    let fits = p.sums_on_the_right(127);
    let more = p.put(3, pair(p.x, fits));
    let mut calls: Vec<Directed> = [(16, p.exp), (16, deep), (27, p.left_sums), (27, more), (27, higher), (19, high), (19, sum), (19, p.too_long)]
        .map(|(number, root)| (number, Strip { root, room: 65_535 })).to_vec();
    calls.extend([(16, Strip { root: deep, room: 0 }), (27, Strip { root: higher, room: 0 }), (19, Strip { root: longest, room: 65_534 })]);
    calls.push((19, Strip { root: p.x, room: 2 }));
    (calls, [Strip { root: longest, room: 65_535 }, Strip { root: fits, room: 511 }])
}

/// 28 and 15 of a run, for each reason.
fn of_runs() -> Vec<Directed> {
    let x = [1, 0, 0];
    let run = |number: u32, parts: &[&[u8]], values: &[f64]| (number, RunStrip { strip: parts.concat(), values: values.to_vec() });
    let pushes = |n: usize| [x.repeat(n), vec![3; n - 1]].concat();
    let literal = |z: i64| [&[2][..], &z.to_le_bytes()].concat();
    vec![
        run(0, &[&literal(1), &literal(3), &[5]], &[]), run(28, &[&[1, 5, 0, 255]], &[]), run(28, &[], &[]), run(15, &[&x], &[]), run(15, &[&x, &[1, 1, 0, 3]], &[1.0]),
        run(28, &[&[1, 0]], &[1.0]), run(28, &[&x, &x], &[1.0]), run(28, &[&x, &[3], &x], &[1.0]), run(28, &[&[3], &x, &x], &[1.0]),
        run(28, &[&[8, 2, 0, 0, 0], &x], &[1.0]),
        run(28, &[&x, &[0]], &[1.0]), run(28, &[&x, &[6]], &[1.0]), run(28, &[&x, &[7]], &[1.0]), run(28, &[&x, &[10]], &[1.0]),
        run(28, &[&x, &[8, 0, 0, 0, 0]], &[1.0]), run(28, &[&x, &[8, 1, 0, 0, 0]], &[1.0]), run(28, &[&x, &[8, 2, 0, 0]], &[1.0]),
        run(28, &[&literal(whole::MAX + 1)], &[]), run(28, &[&literal(-whole::MAX - 1)], &[]), run(28, &[&literal(1)[..8]], &[]),
        run(0, &[&literal(whole::MAX)], &[]), run(0, &[&literal(-whole::MAX)], &[]),
        run(0, &[&x, &[8, 2, 0, 0, 0]], &[1.5]), run(0, &[&x, &[8, 255, 255, 255, 255]], &[-1.0]),
        run(0, &[&x, &[1, 1, 0, 9]], &[f64::NAN, 1.5]), run(0, &[&x, &[1, 1, 0, 9]], &[1.5, f64::NAN]), run(0, &[&x], &[f64::from_bits(1)]),
        run(0, &[&pushes(128)], &[0.5]), run(28, &[&pushes(129)], &[0.5]),
        run(6, &[&x], &[0.0; 65_537]), run(6, &[], &[0.0; 65_537]),
    ]
}

/// 11 to 14 of the operations on expansions.
fn of_expansions(p: &Pool) -> Vec<Directed> {
    let c = Series::constant;
    let l = Series::list;
    let mut calls = vec![
        (12, TaylorDerivative(l(&[p.x, p.x, p.most]), 2)), (12, TaylorDerivative(l(&[p.x; TERMS]), 19)),
        (11, TaylorExp(c(p.two))), (12, TaylorExp(l(&[p.zero, p.most, p.x]))), (13, TaylorExp(l(&[p.zero, p.power, p.square, p.x]))),
        (14, TaylorExp(l(&[p.zero, p.products, p.x]))), (14, TaylorExp(c(p.sums))),
        (11, TaylorLog(c(p.two))), (12, TaylorLog(l(&[p.one, p.most, p.x]))), (13, TaylorLog(l(&[p.one, p.square, p.power, p.x]))),
        (14, TaylorLog(l(&[p.one, p.products, p.x]))), (14, TaylorLog(c(p.products))),
        (12, TaylorAdd(c(p.most), c(p.one))), (14, TaylorAdd(c(p.left_sums), c(p.one))),
        (12, TaylorSub(c(p.minus_one), c(p.most))), (14, TaylorSub(c(p.left_sums), c(p.one))),
        (10, TaylorMax(l(&[p.x]), c(p.x))), (10, TaylorMax(c(p.x), l(&[p.x]))),
    ];
    for (number, a, b) in p.factors() {
        calls.extend([
            (number, TaylorPow(l(&[a, b]), 2)), (number, TaylorMul(c(a), c(b))), (number, TaylorMul(l(&[a, p.x]), l(&[b, p.x]))),
            (number, TaylorDiv(l(&[a, p.x]), l(&[p.one, b]))), (number, TaylorSubst(l(&[p.x, a]), c(b))),
        ]);
    }
    calls
}

/// Calls that are accepted with room for a few nodes. What appends one is refused by 18 in a full pool.
fn of_room(p: &Pool) -> Vec<Call> {
    let (x, y) = (p.x, p.y);
    let (c, d, s) = (Series::constant(x), Series::constant(y), Series::list(&[x, y]));
    let one_node = [&[1, 0, 0, 0, 1][..], &[0; 8]].concat();
    vec![
        Lit(5), Var(65_535), Add(x, y), Mul(x, y), Div(x, y), Max(x, y), Neg(x), Exp(x), Log(x), Pow(x, 2),
        SubstituteVar { root: p.square, var: 0, value: y }, Derive { root: p.square, var: 0 }, Read(one_node),
        TaylorVar { x, order: 1 }, TaylorCoeff(c, 1), TaylorDerivative(s, 1), TaylorNeg(s), TaylorExp(s), TaylorLog(s), TaylorPow(s, 2),
        TaylorAdd(c, s), TaylorSub(s, d), TaylorMul(s, s), TaylorDiv(c, s), TaylorMax(c, d), TaylorSubst(s, s),
        TaylorCoeffs { root: p.square, var: 0, order: 2 }, TaylorCoeffsAt { root: p.square, var: 0, point: 3, order: 2 },
    ]
}

/// Calls that append nothing.
fn of_no_room(p: &Pool) -> Vec<Call> {
    let s = Series::list(&[p.x, p.y]);
    vec![
        Evaluate(p.square, vec![1.5]), EvaluateResidue(p.square, vec![5]), Print { root: p.square, room: 9 }, Write { root: p.square, room: 40 },
        Strip { root: p.square, room: 9 },
        TaylorFromCoefficients(s), TaylorOrder(s),
    ]
}

/// The calls on the pool as it is, and those that are refused by 18 where it is full.
pub struct All {
    pub pool: Pool,
    pub calls: Vec<Directed>,
    pub full: Vec<Directed>,
}

pub fn all() -> All {
    let mut pool = Pool::new();
    let mut calls = of_walks(&mut pool);
    calls.extend(of_expressions(&mut pool));
    let (refused, just_fit) = of_strips(&mut pool);
    calls.extend(refused);
    calls.extend(of_arguments(&pool));
    calls.extend(of_files());
    calls.extend(of_constructors(&pool));
    calls.extend(of_values_and_texts(&pool));
    calls.extend(of_runs());
    calls.extend(of_expansions(&pool));
    calls.extend(of_room(&pool).into_iter().chain(of_no_room(&pool)).map(|call| (0, call)));
    calls.push((0, Print { root: pool.longest, room: 65_535 }));
    calls.extend(just_fit.map(|call| (0, call)));
    let full = of_room(&pool).into_iter().map(|call| (18, call)).collect();
    All { pool, calls, full }
}

/// Every call on both sides, with the answer that it is here for; and on a pool that breaks a rule each call is refused by 1.
pub fn run() -> Met {
    let All { pool, calls, full } = all();
    let mut both = Both::new();
    pool.entries.iter().for_each(|(kind, word)| {
        both.raw(*kind, *word);
    });
    made_on(&mut both, calls);
    both.fill(LIMIT);
    made_on(&mut both, full);
    damage::one_too_many(&mut both);
    both.forget_from(0);
    of_rules(&mut both);
    let found: BTreeSet<_> = both.met.outcomes().collect();
    assert_eq!(found, report::outcomes().collect(), "the outcomes of the calls made for them, and those on the list");
    let made = both.met.calls_made();
    println!("{made} calls, which meet each rule and each of the {} outcomes that an operation can have, as the Rust's", found.len());
    both.met
}

/// Every rule of the constructors: sums, products and quotients of every two shapes, and exp and log of each.
fn of_rules(both: &mut Both) {
    list::shapes().iter().for_each(|(kind, word)| {
        both.raw(*kind, *word);
    });
    let before = counted::count();
    for a in 0..before as u64 {
        let of_two = |b: u64| [Add(a, b), Mul(a, b), Div(a, b)];
        for call in (0..before as u64).flat_map(of_two).chain([Exp(a), Log(a)]) {
            let _ = both.call(&call);
            both.forget_from(before);
        }
    }
    both.forget_from(0);
    oracle::RULES.iter().for_each(|rule| assert!(both.met.rules.contains_key(rule), "rule {rule} is not met"));
}

fn made_on(both: &mut Both, calls: Vec<Directed>) {
    let before = counted::count();
    for (number, call) in calls {
        assert_eq!(both.call(&call).err().unwrap_or(0), number, "{call:?}");
        both.forget_from(before);
    }
}
