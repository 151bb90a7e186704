//! Examples of C-15 by name, on both sides: the results and refusals of `derivative`, which "do not move".
use crate::both::Both;
use crate::call::{Answer, Call, Given, Series};
use crate::counted::LIMIT;
use crate::examples::{text, x0, Example};
use Call::*;

/// 0! to 18!: the numbers of the table that C-15 removed, each compared with Python's math.factorial.
const FACTORIALS: [i64; 19] = [
    1, 1, 2, 6, 24, 120, 720, 5_040, 40_320, 362_880, 3_628_800, 39_916_800, 479_001_600, 6_227_020_800, 87_178_291_200, 1_307_674_368_000,
    20_922_789_888_000, 355_687_428_096_000, 6_402_373_705_728_000,
];

/// A derivative of a list of x0, asked where the pool has room for so many nodes.
fn derivative_in(both: &mut Both, room: usize, order: u64) -> Answer {
    both.forget_from(0);
    let x0 = x0(both);
    both.fill(LIMIT - room);
    both.call(&TaylorDerivative(Series::list(&[x0; 25]), order))
}

pub const DERIVATIVES: [Example; 3] = [
    ("order 0 to 18 of a list of x0: n! x0", |b| {
        for (order, factorial) in (0..).zip(FACTORIALS) {
            let Ok(Given::Number(root)) = derivative_in(b, 36, order) else { panic!("refused") };
            assert_eq!(text(b, root), if factorial == 1 { "a".to_string() } else { format!("{factorial}*a") });
        }
    }),
    ("order n to 18 takes 2n nodes, order 0 one; with room for one less: 18", |b| {
        for order in 0..=18 {
            let takes = usize::max(1, 2 * order);
            assert!(derivative_in(b, takes, order as u64).is_ok());
            assert_eq!(derivative_in(b, takes - 1, order as u64), Err(18));
        }
    }),
    ("order 19 to 24: 12 with room for 36 literals, 18 with room for 35", |b| {
        for order in 19..=24 {
            assert_eq!(derivative_in(b, 36, order), Err(12));
            assert_eq!(derivative_in(b, 35, order), Err(18));
        }
    }),
];
