//! Key strips made and run, beside the same in plain C (strips.c) and beside evaluation on the pool.
use crate::cases::{horner, point, polynomial};
use crate::engine::{plain_run_strip, run_strip, Pool, STRIP_MAX};
use crate::timing::{median, row};
use std::hint::black_box;
use std::time::Duration;

/// Calls in a row of one time, each at a point of its own.
const CALLS: u32 = 20;

/// How many codes a strip has.
fn keys(strip: &[u8]) -> usize {
    let (mut at, mut keys) = (0, 0);
    while at < strip.len() {
        at += 1 + match strip[at] {
            1 => 2,
            2 => 8,
            8 => 4,
            _ => 0,
        };
        keys += 1;
    }
    keys
}

/// The strip, made by both sides alike; run by both and evaluated it gives the same bits.
fn compared(pool: &Pool, root: u64) -> Vec<u8> {
    let (mut out, mut plain) = (vec![0; STRIP_MAX], vec![0; STRIP_MAX]);
    let length = pool.strip(root, &mut out);
    assert_eq!((length, &out), (pool.plain_strip(root, &mut plain), &plain), "the strips differ");
    out.truncate(length);
    for j in 0..1000 {
        let values = [point(j)];
        let bits = run_strip(&out, &values);
        assert!(bits == plain_run_strip(&out, &values) && bits == pool.evaluate(root, &values), "the values differ");
    }
    out
}

/// The time of one call of a number of calls, each at another point.
fn at_points(time: Duration, call: impl Fn(&[f64]) -> u64) -> f64 {
    let mut j = 0;
    median(time, || {
        row(CALLS, || {
            j = (j + 1) % 1000;
            black_box(call(black_box(&[point(j)])));
        })
    })
}

pub fn compare(time: Duration) {
    println!("key strips            keys  bytes |  strip µs     C µs  ratio |    run µs     C µs  ratio | evaluate µs  run / evaluate");
    for (form, make) in [("polynomial", polynomial as fn(&mut Pool, u64) -> u64), ("Horner", horner)] {
        for terms in [25, 100, 300] {
            let mut pool = Pool::new();
            let root = make(&mut pool, terms);
            let strip = compared(&pool, root);
            let mut out = vec![0; STRIP_MAX];
            let made = median(time, || row(CALLS, || { black_box(black_box(&pool).strip(root, &mut out)); }));
            let plain_made = median(time, || row(CALLS, || { black_box(black_box(&pool).plain_strip(root, &mut out)); }));
            let ran = at_points(time, |values| run_strip(&strip, values));
            let plain_ran = at_points(time, |values| plain_run_strip(&strip, values));
            let evaluated = at_points(time, |values| pool.evaluate(root, values));
            let [a, b, c, d, e] = [made, plain_made, ran, plain_ran, evaluated].map(|ns| ns / 1e3);
            println!("{form:10} {terms:4} terms {:5} {:6} | {a:9.2} {b:8.2} {:6.2} | {c:9.2} {d:8.2} {:6.2} | {e:11.2} {:15.2}",
                keys(&strip), strip.len(), a / b, c / d, c / e);
        }
    }
}
