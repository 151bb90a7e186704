//! Files and pools that break a rule.
use crate::both::Both;
use crate::call::{Call, Series};
use crate::counted::LIMIT;
use crate::engine::Engine;
use crate::file;
use crate::random::Random;

/// A few random entries.
pub fn random_file(random: &mut Random) -> Vec<u8> {
    let n = 1 + random.below(4);
    let mut file = (n as u32).to_le_bytes().to_vec();
    file.extend((0..n).map(|_| 1 + random.below(9) as u8));
    (0..n).for_each(|i| file.extend((random.below(i + 2) + (random.below(i + 2) << 32)).to_le_bytes()));
    file
}

/// A file as it is, or damaged.
pub fn file(random: &mut Random, mut file: Vec<u8>) -> Vec<u8> {
    let n = (file.len() - 4) / 9;
    match random.below(8) {
        0 => {
            let at = random.below(file.len() as u64) as usize;
            file[at] ^= 1 << random.below(8);
        }
        1 => file.truncate(random.below(file.len() as u64) as usize),
        2 => file.push(0),
        3 => {
            // two entries exchanged, as they are
            let (a, b) = (random.below(n as u64) as usize, random.below(n as u64) as usize);
            file.swap(4 + a, 4 + b);
            (0..8).for_each(|k| file.swap(4 + n + 8 * a + k, 4 + n + 8 * b + k));
        }
        4 => {
            // an entry more, at the front, that nothing reaches
            file[..4].copy_from_slice(&(n as u32 + 1).to_le_bytes());
            file.insert(4, 1);
            (0..8).for_each(|_| file.insert(5 + n, 0));
        }
        _ => {}
    }
    file
}

/// An entry, the count or a table's length changed, or nothing.
fn damage(random: &mut Random, engine: &mut Engine) {
    let count = engine.count();
    let i = match random.below(3) {
        0 => random.below(LIMIT as u64),
        1 => (count + random.below(2)).min(LIMIT as u64 - 1),
        _ => random.below(count.max(1)),
    } as usize;
    let (kind, word) = engine.entry(i);
    match random.below(8) {
        0 => engine.lend(LIMIT - random.below(2) as usize, LIMIT - 1 + random.below(2) as usize),
        1 => engine.damage(i, kind, word, random.next()),
        2 => engine.damage(i, kind, word, count.wrapping_add(random.below(3)).wrapping_sub(1)),
        3 => engine.damage(i, random.below(12) as u8, word, count),
        4 => engine.damage(i, kind, word ^ (1 << random.below(64)), count),
        5 => engine.damage(i, kind, word.wrapping_add(1 << 32), count),
        6 => engine.damage(i, kind, random.next(), count),
        _ => {}
    }
}

/// Each call on a pool once, with arguments that other refusals, or none, would be given for.
pub fn each_call(node: u64, var: u64, s: Series) -> Vec<Call> {
    use Call::*;
    let t = Series::constant(node);
    vec![
        Lit(i64::MIN), Var(var), Add(node, 0), Mul(0, node), Div(node, node), Max(node, 0), Neg(node), Exp(node), Log(node), Pow(node, 0),
        SubstituteVar { root: node, var, value: node }, Derive { root: node, var }, Evaluate(node, vec![]), EvaluateResidue(node, vec![u32::MAX]),
        Print { root: node, room: 0 }, Write { root: node, room: 0 }, Strip { root: node, room: 0 }, Read(vec![]),
        TaylorVar { x: node, order: 25 }, TaylorFromCoefficients(s), TaylorOrder(s), TaylorCoeff(s, 0), TaylorDerivative(s, var),
        TaylorNeg(s), TaylorExp(t), TaylorLog(s), TaylorPow(s, 2), TaylorAdd(s, t), TaylorSub(t, s), TaylorMul(s, s), TaylorDiv(t, t),
        TaylorMax(s, t), TaylorSubst(s, s),
        TaylorCoeffs { root: node, var, order: 3 }, TaylorCoeffsAt { root: node, var, point: i64::MIN, order: 26 },
    ]
}

/// A pool that breaks a rule, or tables of other lengths: every call on it is refused by 1.
pub fn pool(random: &mut Random, both: &mut Both) {
    let mut engine = both.engine.clone();
    let node = random.node(engine.count());
    damage(random, &mut engine);
    if checked(&engine, both) {
        let s = Series { order: random.order(), coeffs: [node; 25] };
        refused(engine, both, each_call(node, random.variable(), s));
    }
}

/// A pool whose count is one above the limit: every call is refused by 1, and without that `check` finds no rule broken.
pub fn one_too_many(both: &mut Both) {
    assert!(!checked(&both.engine.clone(), both));
    let mut engine = both.engine.clone();
    let (kind, word) = engine.entry(0);
    engine.damage(0, kind, word, LIMIT as u64 + 1);
    assert!(checked(&engine, both));
    refused(engine, both, each_call(0, 0, Series::constant(0)));
}

/// Whether a rule is broken, by document 01's words and by `check`.
fn checked(engine: &Engine, both: &mut Both) -> bool {
    let (kinds, words) = engine.tables();
    let broken = !file::is_pool(kinds, words, engine.count());
    assert_eq!(engine.check(), broken as u32, "check of a damaged pool");
    both.met.count("check", broken as u32);
    broken
}

fn refused(mut engine: Engine, both: &mut Both, calls: Vec<Call>) {
    for call in calls {
        assert_eq!(call.mine(&mut engine), Err(1), "{call:?} on a damaged pool");
        both.met.count(call.name(), 1);
    }
    engine.check_guards("calls on a damaged pool");
}
