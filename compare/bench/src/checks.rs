//! The pool check beside a plain C loop, and constructor calls in units of the check.
use crate::engine::{Pool, LIMIT};
use crate::timing::{median, row};
use std::hint::black_box;
use std::time::{Duration, Instant};

/// x0, and sums of the one before with it, up to a count.
fn filled(count: usize) -> Pool {
    let mut pool = Pool::new();
    for i in 0..count {
        if i == 0 {
            pool.push(1, 0);
        } else {
            pool.push(3, i as u64 - 1);
        }
    }
    pool
}

/// All kinds in turn, which no branch predictor learns by one rule.
fn mixed(count: usize) -> Pool {
    let mut pool = Pool::new();
    let mut seed = 88_172_645_463_325_252u64;
    for i in 0..count as u64 {
        seed ^= seed << 13;
        seed ^= seed >> 7;
        seed ^= seed << 17;
        let part = seed % i.max(1);
        let other = (seed >> 20) % i.max(1);
        match if i == 0 { 0 } else { (seed >> 40) % 9 } {
            0 => pool.push(1, 0),
            1 => pool.push(2, other),
            2 => pool.push(6, part),
            3 => pool.push(7, part),
            4 => pool.push(8, part + (5 << 32)),
            k => pool.push([3, 4, 5, 9][k as usize - 5], part + (other << 32)),
        };
    }
    pool
}

/// A constructor's call; the pool is put back outside the time.
fn constructor(time: Duration, pool: &mut Pool, call: fn(&mut Pool) -> u64) -> f64 {
    let start = pool.count;
    median(time, || {
        let from = Instant::now();
        black_box(call(black_box(pool)));
        let took = from.elapsed().as_nanos() as f64;
        pool.back_to(start);
        took
    })
}

extern "C" {
    fn moved() -> i32;
}

pub fn compare(time: Duration) {
    println!("the code moved by {} bytes", unsafe { moved() });
    println!("pool                  check ns    C loop ns   ratio  |  var ns  in checks |  add ns  in checks");
    let pools = [
        ("empty (1 node)", filled(1)),
        ("half, sums", filled(LIMIT / 2)),
        ("nearly full, sums", filled(LIMIT - 1)),
        ("nearly full, mixed", mixed(LIMIT - 1)),
    ];
    for (name, mut pool) in pools {
        let check = median(time, || row(20, || assert_eq!(black_box(&pool).check(), 0)));
        let plain = median(time, || row(20, || assert_eq!(black_box(&pool).plain_check(), 0)));
        let var = constructor(time, &mut pool, |p| p.var(1));
        let add = constructor(time, &mut pool, |p| p.add(0, 0));
        println!("{name:20} {check:9.0} {plain:12.0} {:7.2}  | {var:7.0} {:10.2} | {add:7.0} {:10.2}", check / plain, var / check, add / check);
    }
}
