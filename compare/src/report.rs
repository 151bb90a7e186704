//! What a run has met, and whether it missed anything.
use crate::both::Met;
use crate::symbolic::oracle;

/// The refusals that each call can meet, by the Rust's rules and document 01's words: a run must meet each of them, and no other. 13 is not on the list of
/// the last two: an expansion makes every node of its expression anew from the leaves, the rules give a power by itself with the exponent 2 alone, and
/// by products with those no exponent of 32 bits is full before the pool is.
const CAN: [(&str, &[u32]); 37] = [
    ("check", &[1]),
    ("lit", &[1, 4, 18]),
    ("var", &[1, 3, 18]),
    ("add", &[1, 2, 12, 14, 18]),
    ("mul", &[1, 2, 11, 12, 13, 14, 18]),
    ("div", &[1, 2, 18]),
    ("max", &[1, 2, 18]),
    ("neg", &[1, 2, 18]),
    ("exp", &[1, 2, 11, 14, 18]),
    ("log", &[1, 2, 11, 14, 18]),
    ("pow", &[1, 2, 18]),
    ("substitute_var", &[1, 2, 3, 11, 12, 13, 14, 18]),
    ("derive", &[1, 2, 3, 10, 11, 12, 13, 14, 18]),
    ("evaluate", &[1, 2, 6, 15, 16]),
    ("evaluate_residue", &[1, 2, 6, 15, 16, 17]),
    ("print", &[1, 2, 10, 19]),
    ("write", &[1, 2, 19]),
    ("read", &[1, 7, 8, 9, 18]),
    ("strip", &[1, 2, 16, 19, 27]),
    ("run_strip", &[6, 15, 28]),
    ("taylor_var", &[1, 2, 5, 18]),
    ("taylor_from_coefficients", &[1, 2, 5]),
    ("taylor_order", &[1, 2, 5]),
    ("taylor_coeff", &[1, 2, 5, 18]),
    ("taylor_derivative", &[1, 2, 5, 12, 18]),
    ("taylor_neg", &[1, 2, 5, 18]),
    ("taylor_exp", &[1, 2, 5, 11, 12, 13, 14, 18]),
    ("taylor_log", &[1, 2, 5, 11, 12, 13, 14, 18]),
    ("taylor_pow", &[1, 2, 5, 11, 12, 13, 14, 18]),
    ("taylor_add", &[1, 2, 5, 12, 14, 18]),
    ("taylor_sub", &[1, 2, 5, 12, 14, 18]),
    ("taylor_mul", &[1, 2, 5, 11, 12, 13, 14, 18]),
    ("taylor_div", &[1, 2, 5, 11, 12, 13, 14, 18]),
    ("taylor_max", &[1, 2, 5, 10, 18]),
    ("taylor_subst", &[1, 2, 5, 11, 12, 13, 14, 18]),
    ("taylor_coeffs", &[1, 2, 3, 5, 10, 11, 12, 14, 18]),
    ("taylor_coeffs_at", &[1, 2, 3, 4, 5, 10, 11, 12, 14, 18]),
];

/// The numbers that are given: 20 to 26 are not.
fn refusals() -> impl Iterator<Item = u32> {
    (1..=19).chain(27..=28)
}

/// Each call with each outcome that it can have, 0 for accepted.
pub fn outcomes() -> impl Iterator<Item = (&'static str, u32)> {
    CAN.iter().flat_map(|(name, refusals)| std::iter::once(0).chain(refusals.iter().copied()).map(move |number| (*name, number)))
}

/// The names of all calls but `check`, which has no other argument than the pool.
pub fn names() -> impl Iterator<Item = &'static str> {
    CAN.iter().map(|(name, _)| *name).filter(|name| *name != "check")
}

/// Prints how often a call was accepted and refused by each number; false where an outcome is missing or is none of the call's.
fn call_met(met: &Met, name: &str, can: &[u32]) -> bool {
    let times = |outcome: u32| met.calls.get(name).and_then(|outcomes| outcomes.get(&outcome)).copied().unwrap_or(0);
    let refused: Vec<String> = refusals().filter(|number| times(*number) > 0).map(|number| format!("{number}: {}", times(number))).collect();
    println!("{name}: {} accepted; refused by {}", times(0), refused.join(", "));
    let wrong: Vec<u32> = std::iter::once(0).chain(refusals()).filter(|number| (times(*number) > 0) != (*number == 0 || can.contains(number))).collect();
    if !wrong.is_empty() {
        println!("{name}: never met, or met where it cannot be: {wrong:?}");
    }
    wrong.is_empty()
}

/// Prints how often each call, rule and refusal was met, and says whether none was missed.
pub fn complete(met: &Met) -> bool {
    let mut complete = CAN.iter().filter(|(name, can)| !call_met(met, name, can)).count() == 0;
    for rule in oracle::RULES {
        let n = met.rules.get(rule).copied().unwrap_or(0);
        println!("rule {rule}: {n}");
        complete &= n > 0;
    }
    for number in refusals() {
        let n = met.refused_by(number);
        println!("refusal {number}: {n}");
        complete &= n > 0;
    }
    if !complete {
        println!("a rule, a refusal or an outcome was never met, or an outcome was met that cannot be");
    }
    complete
}
