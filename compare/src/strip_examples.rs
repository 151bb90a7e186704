//! Examples of C-20 by name, on both sides: its words, and both sides of each boundary.
use crate::both::Both;
use crate::call::{Answer, Call, Given};
use crate::examples::{lit, node, x0, Example};
use crate::machine::PLACES;
use crate::whole;
use Call::*;

const ROOM: usize = 65_535;

fn strip(both: &mut Both, root: u64) -> Result<Vec<u8>, u32> {
    match both.strip_and_run(root, &[0.5, 2.0]) {
        Ok(Given::Bytes(bytes)) => Ok(bytes),
        Err(number) => Err(number),
        answer => panic!("a strip: {answer:?}"),
    }
}

fn run(both: &mut Both, strip: &[u8], values: &[f64]) -> Result<u64, u32> {
    match both.call(&RunStrip { strip: strip.to_vec(), values: values.to_vec() }) {
        Ok(Given::Number(bits)) => Ok(bits),
        Err(number) => Err(number),
        answer => panic!("a run: {answer:?}"),
    }
}

fn variable(v: u16) -> Vec<u8> {
    [&[1][..], &v.to_le_bytes()].concat()
}

fn literal(z: i64) -> Vec<u8> {
    [&[2][..], &z.to_le_bytes()].concat()
}

fn power(e: u32) -> Vec<u8> {
    [&[8][..], &e.to_le_bytes()].concat()
}

/// A chain of so many leaves x0 by nodes of one kind, the deeper part on the right or on the left.
fn leaves(both: &mut Both, kind: u8, n: usize, right: bool) -> u64 {
    let x = x0(both);
    (1..n).fold(x, |top, _| both.raw(kind, if right { x + (top << 32) } else { top + (x << 32) }))
}

/// x0, and so many sums of a node with itself.
fn tower(both: &mut Both, levels: usize) -> u64 {
    let x = x0(both);
    (0..levels).fold(x, |top, _| both.raw(3, top + (top << 32)))
}

/// x0^2 and 2, 4, .., 2^13 further leaves x0: 4 × 16,383 + 4 bytes.
fn one_byte_more(both: &mut Both) -> u64 {
    let x = x0(both);
    let mut sum = both.raw(8, x + (2 << 32));
    let mut doubled = x;
    for _ in 0..13 {
        doubled = both.raw(3, doubled + (doubled << 32));
        sum = both.raw(3, sum + (doubled << 32));
    }
    sum
}

fn with_room(both: &mut Both, root: u64, room: usize) -> Answer {
    both.call(&Strip { root, room })
}

pub const MAKING: [Example; 14] = [
    ("x0 is 01 00 00, x65535 is 01 ff ff", |b| {
        let (x0, last) = (x0(b), node(b, Var(65_535)));
        assert_eq!(strip(b, x0), Ok(vec![1, 0, 0]));
        assert_eq!(with_room(b, last, ROOM), Ok(Given::Bytes(vec![1, 0xff, 0xff])));
    }),
    ("1/3 has 19 bytes, which run to 3FD5555555555555", |b| {
        let (one, three) = (lit(b, 1), lit(b, 3));
        let root = node(b, Div(one, three));
        let bytes = [literal(1), literal(3), vec![5]].concat();
        assert_eq!((bytes.len(), strip(b, root)), (19, Ok(bytes.clone())));
        assert_eq!(run(b, &bytes, &[]), Ok(0x3fd5_5555_5555_5555));
    }),
    ("x0 + -1: the literal low byte first, in two's complement", |b| {
        let (x0, minus) = (x0(b), lit(b, -1));
        let root = node(b, Add(x0, minus));
        assert_eq!(strip(b, root), Ok(vec![1, 0, 0, 2, 255, 255, 255, 255, 255, 255, 255, 255, 3]));
    }),
    ("x1^4294967295: 08 ff ff ff ff behind its base", |b| {
        let x1 = node(b, Var(1));
        let root = node(b, Pow(x1, u32::MAX));
        assert_eq!(strip(b, root), Ok(vec![1, 1, 0, 8, 255, 255, 255, 255]));
    }),
    ("a shared part is repeated: (x0 × x1) + itself", |b| {
        let (x0, x1) = (x0(b), node(b, Var(1)));
        let product = node(b, Mul(x0, x1));
        let root = node(b, Add(product, product));
        assert_eq!(strip(b, root), Ok(vec![1, 0, 0, 1, 1, 0, 4, 1, 0, 0, 1, 1, 0, 4, 3]));
    }),
    ("an output that is just long enough, and one byte less: 19", |b| {
        let x0 = x0(b);
        let root = node(b, Max(x0, x0));
        assert_eq!(with_room(b, root, 7), Ok(Given::Bytes(vec![1, 0, 0, 1, 0, 0, 9])));
        assert_eq!(with_room(b, root, 6), Err(19));
    }),
    ("16,384 leaves are 65,535 bytes; in 65,534: 19", |b| {
        let root = tower(b, 14);
        assert_eq!(strip(b, root).map(|bytes| bytes.len()), Ok(65_535));
        assert_eq!(with_room(b, root, 65_534), Err(19));
    }),
    ("65,536 bytes: 19, with any room", |b| {
        let root = one_byte_more(b);
        for room in [65_535, 65_536, 100_000] {
            assert_eq!(with_room(b, root, room), Err(19));
        }
    }),
    ("128 leaves with the deeper part on the right, by each kind, are made and run; 129: 27", |b| {
        for kind in [3, 4, 5, 9] {
            let (fits, more) = (leaves(b, kind, PLACES, true), leaves(b, kind, PLACES + 1, true));
            assert_eq!(strip(b, fits).map(|bytes| bytes.len()), Ok(4 * PLACES - 1));
            assert_eq!((strip(b, more), with_room(b, more, 0)), (Err(27), Err(27)));
        }
    }),
    ("on the left any number fits: 2,000 leaves", |b| {
        let root = leaves(b, 3, 2_000, false);
        assert_eq!(strip(b, root).map(|bytes| bytes.len()), Ok(4 * 2_000 - 1));
    }),
    ("a power takes no place more than its base; a sum with it on the right does", |b| {
        let base = leaves(b, 3, PLACES, true);
        let root = b.raw(8, base + (2 << 32));
        assert_eq!(strip(b, root).map(|bytes| bytes.len()), Ok(4 * PLACES + 4));
        let (left, right) = (b.raw(3, root), b.raw(3, root << 32));
        assert_eq!(strip(b, left).map(|bytes| bytes.len()), Ok(4 * PLACES + 8));
        assert_eq!(strip(b, right), Err(27));
    }),
    ("sums of a node with itself: at 127 levels 19, at 128 levels 27, which comes before 19", |b| {
        for (levels, number) in [(40, 19), (127, 19), (128, 27), (1_000, 27)] {
            let root = tower(b, levels);
            assert_eq!(strip(b, root), Err(number));
        }
    }),
    ("both Exp and 200 leaves on the right: 16, which comes before 27; and before 19", |b| {
        let deep = leaves(b, 3, 200, true);
        let (exp, high) = (b.raw(6, deep), tower(b, 127));
        let log = b.raw(7, high);
        assert_eq!((strip(b, exp), strip(b, log), with_room(b, exp, 0)), (Err(16), Err(16), Err(16)));
    }),
    ("an Exp or Log in the pool that is not reached does not matter; in the deepest part it does", |b| {
        let x0 = x0(b);
        let (exp, two) = (node(b, Exp(x0)), lit(b, 2));
        let root = node(b, Mul(two, x0));
        assert_eq!(strip(b, root), Ok([literal(2), variable(0), vec![4]].concat()));
        let deepest = (0..100).fold(exp, |top, _| b.raw(9, x0 + (top << 32)));
        assert_eq!(strip(b, deepest), Err(16));
    }),
];

/// One value more than there are places is pushed, or just as many, and then they are added up.
fn pushes(n: usize) -> Vec<u8> {
    [variable(0).repeat(n), vec![3; n - 1]].concat()
}

pub const RUNNING: [Example; 12] = [
    ("01 05 00 ff with no values: 28, before 15", |b| assert_eq!(run(b, &[1, 5, 0, 0xff], &[]), Err(28))),
    ("x5 with five values: 15; with six its value", |b| {
        assert_eq!(run(b, &variable(5), &[1.0; 5]), Err(15));
        assert_eq!(run(b, &variable(5), &[1.0; 6]), Ok(1f64.to_bits()));
    }),
    ("65,537 values: 6, also of no strip; 65,536 are taken", |b| {
        assert_eq!((run(b, &variable(0), &[2.0; 65_537]), run(b, &[], &[2.0; 65_537])), (Err(6), Err(6)));
        assert_eq!(run(b, &variable(65_535), &[2.0; 65_536]), Ok(2f64.to_bits()));
    }),
    ("an empty strip, a code alone, two values left: 28", |b| {
        for bytes in [vec![], vec![3], vec![8, 2, 0, 0, 0], [variable(0), vec![3]].concat(), variable(0).repeat(2), pushes(3)[1..].to_vec()] {
            assert_eq!(run(b, &bytes, &[1.0]), Err(28));
        }
    }),
    ("every other code than 1 to 5, 8 and 9: 28", |b| {
        for code in (0..=255).filter(|code| ![1, 2, 3, 4, 5, 8, 9].contains(code)) {
            assert_eq!((run(b, &[1, 0, 0, code], &[1.0]), run(b, &[code, 0, 0], &[1.0])), (Err(28), Err(28)));
        }
    }),
    ("what follows is cut off at each byte: 28", |b| {
        for (key, before) in [(variable(0), vec![]), (literal(1), vec![]), (power(2), variable(0))] {
            let whole = [before.clone(), key.clone()].concat();
            assert!(run(b, &whole, &[1.0]).is_ok());
            (before.len() + 1..whole.len()).for_each(|n| assert_eq!(run(b, &whole[..n], &[1.0]), Err(28)));
        }
    }),
    ("literals 2^53 - 1 and its negative run; 2^53, -2^53 and the least are 28", |b| {
        for z in [whole::MAX, -whole::MAX] {
            assert_eq!(run(b, &literal(z), &[]), Ok((z as f64).to_bits()));
        }
        for z in [whole::MAX + 1, -whole::MAX - 1, i64::MIN, i64::MAX] {
            assert_eq!(run(b, &literal(z), &[]), Err(28));
        }
    }),
    ("exponents 0 and 1: 28; 2 and 2^32 - 1 run", |b| {
        for (e, value) in [(0, Err(28)), (1, Err(28)), (2, Ok(1f64.to_bits())), (u32::MAX, Ok((-1f64).to_bits()))] {
            assert_eq!(run(b, &[literal(-1), power(e)].concat(), &[]), value);
        }
    }),
    ("128 pushes run; 129: 28", |b| {
        assert_eq!(run(b, &pushes(PLACES), &[0.5]), Ok(64f64.to_bits()));
        assert_eq!(run(b, &pushes(PLACES + 1), &[0.5]), Err(28));
    }),
    ("the lower one is the left: 1 over 2, and Max with NaN both ways", |b| {
        assert_eq!(run(b, &[literal(1), literal(2), vec![5]].concat(), &[]), Ok(0.5f64.to_bits()));
        let max = [variable(0), variable(1), vec![9]].concat();
        assert_eq!(run(b, &max, &[f64::NAN, 1.5]), Ok(1.5f64.to_bits()));
        assert_eq!(run(b, &max, &[1.5, f64::NAN]), Ok(1.5f64.to_bits()));
        assert_eq!(run(b, &max, &[f64::NAN, f64::NAN]), Ok(0x7ff8_0000_0000_0000));
        assert_eq!((run(b, &max, &[0.0, -0.0]), run(b, &max, &[-0.0, 0.0])), (Ok((-0f64).to_bits()), Ok(0)));
    }),
    ("a NaN leaves as 7FF8000000000000, whatever its bits were", |b| {
        for nan in [0x7ff0_0000_0000_0001, 0xffff_ffff_ffff_ffff, 0x7ff8_0000_0000_0000] {
            assert_eq!(run(b, &variable(0), &[f64::from_bits(nan)]), Ok(0x7ff8_0000_0000_0000));
        }
    }),
    ("there is no limit of length: a strip of 4,000,003 bytes", |b| {
        let strip = [variable(0), [variable(0), vec![3]].concat().repeat(1_000_000)].concat();
        assert_eq!(run(b, &strip, &[1.0]), Ok(1_000_001f64.to_bits()));
        assert_eq!(run(b, &strip[..4_000_002], &[1.0]), Err(28));
    }),
];
