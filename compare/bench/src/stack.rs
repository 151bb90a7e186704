//! The deepest stack of each entry point on the worst pools. The stack below a call is painted first; what the call wrote to is seen after it.
use crate::engine::*;
use std::hint::black_box;

/// Stack of the thread, how much of it is painted, and what is left unpainted for the frames that paint and look.
const THREAD: usize = 16 << 20;
const PAINTED: usize = 12 << 20;
const GAP: usize = 1024;
const PAINT: u64 = 0xa5a5_5a5a_c3c3_3c3c;

#[inline(never)]
fn paint(low: usize, high: usize) {
    (low..high).step_by(8).for_each(|at| unsafe { (at as *mut u64).write_volatile(PAINT) });
}

/// The lowest word that lost its paint.
#[inline(never)]
fn lowest(low: usize, high: usize) -> usize {
    (low..high).step_by(8).find(|at| unsafe { (*at as *const u64).read_volatile() } != PAINT).unwrap_or(high)
}

/// How far below this frame a call writes, in bytes.
#[inline(never)]
fn deepest(call: &mut dyn FnMut()) -> usize {
    let here = 0u64;
    let at = black_box(&here) as *const u64 as usize;
    let (low, high) = (at - PAINTED, at - GAP);
    paint(low, high);
    call();
    at - lowest(low, high)
}

/// Which parts a node of a chain has: the one before and x0, or the one before twice, or the one before and the literal.
#[derive(Clone, Copy)]
enum Parts {
    Left,
    Right,
    Both,
    LeftLit,
    RightLit,
    Only,
    Power,
}
use Parts::*;

const CHAINS: [(&str, u8, Parts, u64); 23] = [
    ("Add(.., x)", 3, Left, 1),
    ("Add(x, ..)", 3, Right, 1),
    ("Add(.., ..)", 3, Both, 1),
    ("Add(.., 0)", 3, LeftLit, 0),
    ("Add(0, ..)", 3, RightLit, 0),
    ("Mul(.., x)", 4, Left, 1),
    ("Mul(x, ..)", 4, Right, 1),
    ("Mul(.., ..)", 4, Both, 1),
    ("Mul(.., 1)", 4, LeftLit, 1),
    ("Mul(1, ..)", 4, RightLit, 1),
    ("Mul(2, ..)", 4, RightLit, 2),
    ("Div(.., x)", 5, Left, 1),
    ("Div(x, ..)", 5, Right, 1),
    ("Div(.., ..)", 5, Both, 1),
    ("Div(.., 2)", 5, LeftLit, 2),
    ("Exp(..)", 6, Only, 1),
    ("Log(..)", 7, Only, 1),
    ("Pow(.., 2)", 8, Power, 2),
    ("Pow(.., 2^32 - 1)", 8, Power, u32::MAX as u64),
    ("Max(.., x)", 9, Left, 1),
    ("Max(x, ..)", 9, Right, 1),
    ("Max(.., ..)", 9, Both, 1),
    ("Add(.., 1)", 3, LeftLit, 1),
];

/// x0, a literal, and then each node of one kind over the node before, up to a count.
fn chain(kind: u8, parts: Parts, lit: u64, count: u64) -> Pool {
    let mut pool = Pool::new();
    pool.push(1, 0);
    pool.push(2, lit);
    let mut before = 0;
    while pool.count < count {
        let word = match parts {
            Left => before,
            Right => before << 32,
            Both => before + (before << 32),
            LeftLit => before + (1 << 32),
            RightLit => 1 + (before << 32),
            Only => before,
            Power => before + (lit << 32),
        };
        before = pool.push(kind, word);
    }
    pool
}

/// The chains, full and with room left; 14, 40 and 127 doublings; a full pool of variables.
fn pools() -> Vec<(String, Pool)> {
    let mut pools = Vec::new();
    for (name, kind, parts, lit) in CHAINS {
        for count in [4096, 4095, 4000, 2048, 1000, 300, 202] {
            pools.push((format!("{name} to {count} nodes"), chain(kind, parts, lit, count)));
        }
    }
    for (name, kind) in [("Add", 3), ("Mul", 4)] {
        for levels in [14, 40, 127] {
            pools.push((format!("{levels} doublings by {name}"), chain(kind, Both, 1, levels + 2)));
        }
    }
    let mut full = Pool::new();
    while full.count < LIMIT as u64 {
        full.push(1, 0);
    }
    pools.push(("4,096 variables".into(), full));
    pools
}

/// What a call is given beside the pool.
struct Arguments {
    top: u64,
    other: u64,
    first: Expansion,
    second: Expansion,
    exp: u32,
    file: Vec<u8>,
    out: Vec<u8>,
    strip: Vec<u8>,
}

fn list(node: u64, others: u64) -> Expansion {
    let mut coeffs = [others; LIST];
    coeffs[0] = node;
    Expansion { order: LIST as u64, coeffs }
}

fn constant(node: u64) -> Expansion {
    Expansion { order: CONSTANT, coeffs: [node; LIST] }
}

/// The strip of a node, or where it has none one that needs all places.
fn strip_of(pool: &Pool, top: u64) -> Vec<u8> {
    let mut strip = vec![0; STRIP_MAX];
    let mut length = 0;
    let number = unsafe { bunlayog_strip(pool.kinds.as_ptr(), LIMIT, pool.words.as_ptr(), LIMIT, pool.count, top, strip.as_mut_ptr(), STRIP_MAX, &mut length) };
    if number != 0 {
        return [[1, 0, 0].repeat(PLACES), vec![3; PLACES - 1]].concat();
    }
    strip.truncate(length as usize);
    strip
}

/// Several choices of arguments on a pool.
fn arguments(pool: &Pool) -> Vec<Arguments> {
    let top = pool.count - 1;
    let below = top.saturating_sub(1);
    let mut file = vec![0; FILE_MAX];
    let mut length = 0;
    unsafe { bunlayog_write(pool.kinds.as_ptr(), LIMIT, pool.words.as_ptr(), LIMIT, pool.count, top, file.as_mut_ptr(), FILE_MAX, &mut length) };
    file.truncate(length as usize);
    let strip = strip_of(pool, top);
    let given = |top, other, first, second, exp| Arguments { top, other, first, second, exp, file: file.clone(), out: vec![0; TEXT_MAX], strip: strip.clone() };
    vec![
        given(top, 0, list(top, top), list(top, top), 3),
        given(top, top, constant(top), list(0, top), 2),
        given(top, below, list(0, top), constant(top), u32::MAX),
        given(top, 1, list(0, 1), list(top, 0), 2),
        given(0, top, constant(0), constant(top), 2),
    ]
}

type Call = fn(&mut Pool, &mut Arguments) -> u32;

/// A call of a function that works on the pool, and of one that reads it.
macro_rules! work {
    ($f:ident, |$a:ident| $($arg:expr),*) => {
        (stringify!($f), |p: &mut Pool, $a: &mut Arguments| unsafe {
            $f(p.kinds.as_mut_ptr(), LIMIT, p.words.as_mut_ptr(), LIMIT, &mut p.count, $($arg),*)
        })
    };
}
macro_rules! look {
    ($f:ident, |$a:ident| $($arg:expr),*) => {
        (stringify!($f), |p: &mut Pool, $a: &mut Arguments| unsafe { $f(p.kinds.as_ptr(), LIMIT, p.words.as_ptr(), LIMIT, p.count, $($arg),*) })
    };
}
macro_rules! one {
    ($f:ident) => {
        work!($f, |a| a.first.order, a.first.coeffs.as_ptr(), &mut 0, [0u64; LIST].as_mut_ptr())
    };
}
macro_rules! two {
    ($f:ident) => {
        work!($f, |a| a.first.order, a.first.coeffs.as_ptr(), a.second.order, a.second.coeffs.as_ptr(), &mut 0, [0u64; LIST].as_mut_ptr())
    };
}

/// Reading appends to the pool, or to an empty one.
fn read(pool: &mut Pool, a: &mut Arguments) -> u32 {
    if a.other == 0 {
        pool.back_to(0);
    }
    work!(bunlayog_read, |a| a.file.as_ptr(), a.file.len(), &mut 0).1(pool, a)
}

/// The machine is lent no pool.
fn run_strip(_: &mut Pool, a: &mut Arguments) -> u32 {
    unsafe { bunlayog_run_strip(a.strip.as_ptr(), a.strip.len(), [1.0].as_ptr(), 1, &mut 0) }
}

const CALLS: [(&str, Call); 37] = [
    look!(bunlayog_check, |_a|),
    work!(bunlayog_lit, |_a| 7, &mut 0),
    work!(bunlayog_var, |_a| 7, &mut 0),
    work!(bunlayog_add, |a| a.top, a.other, &mut 0),
    work!(bunlayog_mul, |a| a.top, a.other, &mut 0),
    work!(bunlayog_div, |a| a.top, a.other, &mut 0),
    work!(bunlayog_max, |a| a.top, a.other, &mut 0),
    work!(bunlayog_neg, |a| a.top, &mut 0),
    work!(bunlayog_exp, |a| a.top, &mut 0),
    work!(bunlayog_log, |a| a.top, &mut 0),
    work!(bunlayog_pow, |a| a.top, a.exp, &mut 0),
    work!(bunlayog_substitute_var, |a| a.top, a.other % 2, a.other, &mut 0),
    work!(bunlayog_derive, |a| a.top, a.other % 2, &mut 0),
    look!(bunlayog_evaluate, |a| a.top, [1.0].as_ptr(), 1, &mut 0),
    look!(bunlayog_evaluate_residue, |a| a.top, [1].as_ptr(), 1, &mut 0),
    look!(bunlayog_print, |a| a.top, a.out.as_mut_ptr(), a.out.len(), &mut 0),
    look!(bunlayog_write, |a| a.top, a.out.as_mut_ptr(), a.out.len(), &mut 0),
    ("bunlayog_read", read),
    look!(bunlayog_strip, |a| a.top, a.out.as_mut_ptr(), a.out.len(), &mut 0),
    ("bunlayog_run_strip", run_strip),
    work!(bunlayog_taylor_var, |a| a.top, 24, &mut 0, [0u64; LIST].as_mut_ptr()),
    look!(bunlayog_taylor_from_coefficients, |a| a.first.order, a.first.coeffs.as_ptr(), &mut 0, [0u64; LIST].as_mut_ptr()),
    work!(bunlayog_taylor_coeff, |a| a.first.order, a.first.coeffs.as_ptr(), 24, &mut 0),
    work!(bunlayog_taylor_derivative, |a| a.first.order, a.first.coeffs.as_ptr(), 18, &mut 0),
    look!(bunlayog_taylor_order, |a| a.first.order, a.first.coeffs.as_ptr(), &mut 0),
    one!(bunlayog_taylor_exp),
    one!(bunlayog_taylor_log),
    one!(bunlayog_taylor_neg),
    work!(bunlayog_taylor_pow, |a| a.first.order, a.first.coeffs.as_ptr(), a.exp, &mut 0, [0u64; LIST].as_mut_ptr()),
    two!(bunlayog_taylor_add),
    two!(bunlayog_taylor_sub),
    two!(bunlayog_taylor_mul),
    two!(bunlayog_taylor_div),
    two!(bunlayog_taylor_max),
    two!(bunlayog_taylor_subst),
    work!(bunlayog_taylor_coeffs, |a| a.top, a.other % 2, 24, &mut 0, [0u64; LIST].as_mut_ptr()),
    work!(bunlayog_taylor_coeffs_at, |a| a.top, a.other % 2, 1, 24, &mut 0, [0u64; LIST].as_mut_ptr()),
];

fn goal(name: &str) -> usize {
    if name.contains("taylor") { 4 << 20 } else { 2 << 20 }
}

/// Every entry point on every pool in a thread that has its goal of stack: one that needs more ends the program.
fn within_goals() {
    for (name, call) in CALLS {
        let run = move || {
            for (_, pool) in pools() {
                arguments(&pool).iter_mut().for_each(|given| { black_box(call(&mut pool.clone(), given)); });
            }
        };
        std::thread::Builder::new().stack_size(goal(name)).spawn(run).unwrap().join().unwrap();
    }
    println!("every entry point ran on every pool in a thread of 2 MiB of stack, those of expansions of 4 MiB");
}

/// The greatest use of an entry point over all pools and arguments: bytes, the pool, the answer there.
fn worst(call: Call, pools: &[(String, Pool)]) -> (usize, String, u32) {
    let mut worst = (0, String::new(), 0);
    for (name, pool) in pools {
        for mut given in arguments(pool) {
            let mut on = pool.clone();
            let mut answer = 0;
            let bytes = deepest(&mut || answer = call(&mut on, &mut given));
            if bytes > worst.0 {
                worst = (bytes, name.clone(), answer);
            }
        }
    }
    worst
}

/// The table; false where a call needs more than its goal.
fn table() -> bool {
    let pools = pools();
    let mut within = true;
    println!("entry point                          bytes  goal     answer  pool");
    for (name, call) in CALLS {
        let (bytes, pool, answer) = worst(call, &pools);
        within &= bytes <= goal(name);
        println!("{name:34} {bytes:8}  {} MiB {answer:6}     {pool}", goal(name) >> 20);
    }
    within
}

pub fn measure() -> bool {
    within_goals();
    std::thread::Builder::new().stack_size(THREAD).spawn(table).unwrap().join().unwrap()
}
