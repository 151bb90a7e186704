//! Every entry point on the worst pools: the engine in threads that have little stack, and its answers compared with the Rust's afterwards.
use crate::call::{Answer, Call, Given, Series, TERMS};
use crate::counted::{self, LIMIT};
use crate::engine::Engine;
use crate::file::{self, Entry};
use crate::machine::PLACES;
use crate::report;
use crate::symbolic::oracle;

const STACK: usize = 2 << 20;
/// The expansion of an expression keeps an expansion for each node.
const STACK_OF_EXPANSIONS: usize = 4 << 20;

struct Case {
    name: String,
    nodes: Vec<Entry>,
    calls: Vec<Call>,
}

/// x0, and each further node of one kind over the one before, on its left or right.
pub fn chain(kind: u8, left: bool, nodes: usize) -> Vec<Entry> {
    let further = (0..nodes as u64 - 1).map(|before| match kind {
        6 | 7 => (kind, before),
        8 => (kind, before + (2 << 32)),
        _ => (kind, if left { before } else { before << 32 }),
    });
    std::iter::once((1, 0)).chain(further).collect()
}

/// x0, and each further node of one kind with the one before as both parts.
pub fn doublings(kind: u8, levels: u64) -> Vec<Entry> {
    std::iter::once((1, 0)).chain((0..levels).map(|before| (kind, before + (before << 32)))).collect()
}

/// Filled up with variables before the root, so that no room is left.
fn filled(nodes: &[Entry]) -> Vec<Entry> {
    let shift = LIMIT - nodes.len();
    let variables = (0..shift).map(|i| (1, i as u64 % 3));
    variables.chain(nodes.iter().map(|node| file::shifted(*node, shift))).collect()
}

fn on_nodes(root: u64) -> Vec<Call> {
    use Call::*;
    vec![
        Lit(5), Var(0), Add(root, 0), Add(root, root), Mul(root, 0), Mul(root, root), Div(root, root), Max(root, 0), Neg(root), Exp(root), Log(root),
        Pow(root, 3), SubstituteVar { root, var: 0, value: root }, SubstituteVar { root, var: 0, value: 0 }, SubstituteVar { root, var: 1, value: 0 },
        Derive { root, var: 0 }, Derive { root, var: 1 }, Evaluate(root, vec![1.0]), Evaluate(root, vec![]), EvaluateResidue(root, vec![1]),
        EvaluateResidue(root, vec![]), Print { root, room: 65_535 }, Print { root, room: 9 }, Write { root, room: 36_868 }, Write { root, room: 9 },
    ]
}

fn on_strips(root: u64) -> Vec<Call> {
    vec![Call::Strip { root, room: 65_535 }, Call::Strip { root, room: 9 }]
}

/// The strip of an expression, where there is one, over a table and over none.
fn runs(root: u64) -> Vec<Call> {
    let Ok(Given::Bytes(strip)) = (Call::Strip { root, room: 65_535 }).theirs() else { return vec![] };
    vec![Call::RunStrip { strip: strip.clone(), values: vec![1.0] }, Call::RunStrip { strip, values: vec![] }]
}

/// Strips that no pool has: of any length, with all places in use, and with a wrong byte at the end.
fn long_strips() -> Vec<Call> {
    let (x, power) = ([1, 0, 0], [8, 255, 255, 255, 255]);
    let all_places = [x.repeat(PLACES), vec![9; PLACES - 1]].concat();
    let mut strips: Vec<Vec<u8>> = [3, 4, 5, 9].map(|code| [&x[..], &[1, 0, 0, code].repeat(1 << 18)].concat()).to_vec();
    strips.push([&x[..], &power.repeat(1 << 16)].concat());
    strips.push(all_places);
    strips.push(x.repeat(1 << 18));
    strips.push(vec![3; 1 << 20]);
    let wrong: Vec<Vec<u8>> = strips.iter().map(|strip| [&strip[..], &[6]].concat()).collect();
    strips.into_iter().chain(wrong).map(|strip| Call::RunStrip { strip, values: vec![1.0] }).collect()
}

fn on_expansions(root: u64) -> Vec<Call> {
    use Call::*;
    let (c, s, t) = (Series::constant(root), Series::list(&[root; TERMS]), Series::list(&[root, 0]));
    let mut calls = vec![TaylorVar { x: root, order: 24 }, TaylorFromCoefficients(s), TaylorOrder(s)];
    for e in [c, s, t] {
        calls.extend([TaylorCoeff(e, 1), TaylorDerivative(e, 1), TaylorNeg(e), TaylorExp(e), TaylorLog(e), TaylorPow(e, 3), TaylorPow(e, u32::MAX)]);
        for f in [c, s, t] {
            calls.extend([TaylorAdd(e, f), TaylorSub(e, f), TaylorMul(e, f), TaylorDiv(e, f), TaylorMax(e, f), TaylorSubst(e, f)]);
        }
    }
    for (var, order) in [(0, 0), (0, 2), (0, 24), (1, 2)] {
        calls.extend([TaylorCoeffs { root, var, order }, TaylorCoeffsAt { root, var, point: 1, order }]);
    }
    calls
}

fn is_expansion_of_expression(call: &Call) -> bool {
    matches!(call, Call::TaylorCoeffs { .. } | Call::TaylorCoeffsAt { .. })
}

fn case(name: String, nodes: Vec<Entry>) -> Case {
    let root = nodes.len() as u64 - 1;
    let mut calls = on_nodes(root);
    calls.extend(on_strips(root));
    calls.push(Call::RunStrip { strip: vec![1, 0, 0], values: vec![1.0] });
    calls.extend(on_expansions(root));
    calls.push(Call::Read(file::written(&nodes, root as usize)));
    assert!(report::names().all(|name| calls.iter().any(|call| call.name() == name)), "every entry point");
    Case { name, nodes, calls }
}

fn cases() -> Vec<Case> {
    const CHAINS: [(&str, u8, bool); 11] = [
        ("Add", 3, true), ("Add on the right", 3, false), ("Mul", 4, true), ("Mul on the right", 4, false), ("Div", 5, true),
        ("Div on the right", 5, false), ("Exp", 6, true), ("Log", 7, true), ("Pow", 8, true), ("Max", 9, true), ("Max on the right", 9, false),
    ];
    let mut cases = Vec::new();
    for (kind_name, kind, left) in CHAINS {
        // full, with room for one node, with room for some, and with room for the work
        for n in [LIMIT, LIMIT - 1, LIMIT - 96, LIMIT / 2, LIMIT / 8] {
            let nodes = chain(kind, left, n);
            cases.push(case(format!("a chain of {n}, {kind_name}"), nodes.clone()));
            let file = file::written(&nodes, n - 1);
            cases.push(Case { name: format!("no nodes, a chain of {n}, {kind_name}, read"), nodes: vec![], calls: vec![Call::Read(file)] });
        }
    }
    for (kind_name, kind) in [("Add", 3), ("Mul", 4), ("Div", 5), ("Max", 9)] {
        let nodes = doublings(kind, 40);
        cases.push(case(format!("40 doublings, {kind_name}, in a full pool"), filled(&nodes)));
        cases.push(case(format!("40 doublings, {kind_name}"), nodes));
    }
    cases.push(case("a full pool".to_string(), filled(&[])));
    for levels in [127, 128] {
        cases.push(Case { name: format!("{levels} doublings"), nodes: doublings(3, levels), calls: on_strips(levels) });
    }
    cases.push(Case { name: "2^14 leaves".to_string(), nodes: doublings(3, 14), calls: on_strips(14) });
    cases.push(Case { name: "long strips".to_string(), nodes: vec![], calls: long_strips() });
    cases
}

/// What a call on these nodes answers and appends.
type Outcome = (Answer, Vec<Entry>);

fn outcome(engine: &mut Engine, nodes: usize, call: &Call) -> Outcome {
    let answer = call.mine(engine);
    let appended = (nodes..engine.count() as usize).map(|i| engine.entry(i)).collect();
    engine.check_guards(call.name());
    engine.forget_from(nodes);
    (answer, appended)
}

/// The engine's outcomes, in a thread with so much stack.
fn outcomes(name: &str, nodes: &[Entry], calls: Vec<Call>, stack: usize) -> Vec<Outcome> {
    let nodes = nodes.to_vec();
    let work = move || {
        let mut engine = Engine::new();
        nodes.iter().for_each(|(kind, word)| engine.push_raw(*kind, *word));
        assert_eq!(engine.check(), 0);
        calls.iter().map(|call| outcome(&mut engine, nodes.len(), call)).collect::<Vec<_>>()
    };
    let thread = std::thread::Builder::new().name(name.to_string()).stack_size(stack).spawn(work).unwrap();
    thread.join().unwrap_or_else(|_| panic!("{name}, with {stack} bytes of stack"))
}

fn compare(name: &str, nodes: usize, calls: &[Call], outcomes: &[Outcome]) {
    for (call, (answer, appended)) in calls.iter().zip(outcomes) {
        assert_eq!(&call.theirs(), answer, "{name}: {call:?}");
        let theirs: Vec<Entry> = (nodes..counted::count()).map(oracle::entry).collect();
        assert_eq!(&theirs, appended, "{name}: {call:?}");
        counted::forget_from(nodes);
    }
}

pub fn all() {
    let cases = cases();
    let (mut made, mut expansions) = (0, 0);
    for Case { name, nodes, calls } in &cases {
        let (large, mut small): (Vec<Call>, Vec<Call>) = calls.iter().cloned().partition(is_expansion_of_expression);
        counted::forget_from(0);
        nodes.iter().for_each(|(kind, word)| {
            oracle::raw(*kind, *word);
        });
        if !nodes.is_empty() {
            small.extend(runs(nodes.len() as u64 - 1));
        }
        compare(name, nodes.len(), &small, &outcomes(name, nodes, small.clone(), STACK));
        compare(name, nodes.len(), &large, &outcomes(name, nodes, large.clone(), STACK_OF_EXPANSIONS));
        made += small.len();
        expansions += large.len();
    }
    counted::forget_from(0);
    println!("{} of the worst pools: {made} calls within 2 MiB of stack and {expansions} expansions of expressions within 4 MiB, as the Rust's", cases.len());
}
