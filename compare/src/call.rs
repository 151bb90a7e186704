//! One call of the C interface with its arguments, and its answer on each side: by the engine, and by the Rust and document 01's words.
use crate::counted::{self, Refusal};
use crate::engine::Engine;
use crate::symbolic::oracle;
use crate::{file, machine, values, whole};
use std::panic::{catch_unwind, AssertUnwindSafe};

/// "An expansion is a constant, or a list of 1 to 25 node numbers".
pub const TERMS: usize = 25;
/// `order` of a constant.
pub const ENDLESS: u64 = u64::MAX;

/// An expansion as a caller has it: an array of 25 with its order beside it.
#[derive(Clone, Copy, Debug, PartialEq)]
pub struct Series {
    pub order: u64,
    pub coeffs: [u64; TERMS],
}

impl Series {
    pub fn constant(node: u64) -> Self {
        let mut coeffs = [0; TERMS];
        coeffs[0] = node;
        Series { order: ENDLESS, coeffs }
    }

    pub fn list(nodes: &[u64]) -> Self {
        let mut coeffs = [0; TERMS];
        coeffs[..nodes.len()].copy_from_slice(nodes);
        Series { order: nodes.len() as u64, coeffs }
    }

    pub fn is_constant(&self) -> bool {
        self.order == ENDLESS
    }

    /// The node numbers given: entries past the end are "unread there in arguments".
    pub fn nodes(&self) -> &[u64] {
        if self.is_constant() { &self.coeffs[..1] } else { &self.coeffs[..self.order.min(TERMS as u64) as usize] }
    }

    /// 5. "an expansion's list has 0 or more than 25 entries"
    fn length_ok(&self) -> bool {
        self.is_constant() || (1..=TERMS as u64).contains(&self.order)
    }
}

#[derive(Clone, Debug, PartialEq)]
pub enum Call {
    Lit(i64),
    Var(u64),
    Add(u64, u64),
    Mul(u64, u64),
    Div(u64, u64),
    Max(u64, u64),
    Neg(u64),
    Exp(u64),
    Log(u64),
    Pow(u64, u32),
    SubstituteVar { root: u64, var: u64, value: u64 },
    Derive { root: u64, var: u64 },
    Evaluate(u64, Vec<f64>),
    EvaluateResidue(u64, Vec<u32>),
    Print { root: u64, room: usize },
    Write { root: u64, room: usize },
    Read(Vec<u8>),
    Strip { root: u64, room: usize },
    RunStrip { strip: Vec<u8>, values: Vec<f64> },
    TaylorVar { x: u64, order: u64 },
    TaylorFromCoefficients(Series),
    TaylorOrder(Series),
    TaylorCoeff(Series, u64),
    TaylorDerivative(Series, u64),
    TaylorNeg(Series),
    TaylorExp(Series),
    TaylorLog(Series),
    TaylorPow(Series, u32),
    TaylorAdd(Series, Series),
    TaylorSub(Series, Series),
    TaylorMul(Series, Series),
    TaylorDiv(Series, Series),
    TaylorMax(Series, Series),
    TaylorSubst(Series, Series),
    TaylorCoeffs { root: u64, var: u64, order: u64 },
    TaylorCoeffsAt { root: u64, var: u64, point: i64, order: u64 },
}
use Call::*;

/// What an accepted call gives: a node, a count or bits; a text or file; an expansion.
#[derive(Clone, Debug, PartialEq)]
pub enum Given {
    Number(u64),
    Bytes(Vec<u8>),
    Expansion(Series),
}
use Given::*;

/// What a call answers: what it gives, or the refusal number.
pub type Answer = Result<Given, u32>;

/// The Rust's answer, or the refusal number. Nodes that a refused call made are forgotten.
pub fn rust<T>(work: impl FnOnce() -> T) -> Result<T, u32> {
    let before = counted::count();
    let answer = catch_unwind(AssertUnwindSafe(work));
    answer.map_err(|panic| {
        counted::forget_from(before);
        if let Some(Refusal(number)) = panic.downcast_ref::<Refusal>() {
            return *number;
        }
        let words = panic.downcast_ref::<String>().cloned().or(panic.downcast_ref::<&str>().map(|s| s.to_string())).unwrap_or_default();
        number_of_panic(&words).unwrap_or_else(|| panic!("the Rust panicked: {words}"))
    })
}

/// "Panics become numbers of the list": the Rust's own panics that the work can come to.
pub fn number_of_panic(words: &str) -> Option<u32> {
    const PANICS: [(&str, u32); 3] = [
        ("add with overflow", 13),
        ("Maximum shouldn't be differentiated", 10),
        ("Maximum can only be applied to constant", 10),
    ];
    PANICS.iter().find(|(part, _)| words.contains(part)).map(|(_, number)| *number)
}

impl Call {
    /// The name of the C function, without its prefix.
    pub fn name(&self) -> &'static str {
        match self {
            Lit(..) => "lit",
            Var(..) => "var",
            Add(..) => "add",
            Mul(..) => "mul",
            Div(..) => "div",
            Max(..) => "max",
            Neg(..) => "neg",
            Exp(..) => "exp",
            Log(..) => "log",
            Pow(..) => "pow",
            SubstituteVar { .. } => "substitute_var",
            Derive { .. } => "derive",
            Evaluate(..) => "evaluate",
            EvaluateResidue(..) => "evaluate_residue",
            Print { .. } => "print",
            Write { .. } => "write",
            Read(..) => "read",
            Strip { .. } => "strip",
            RunStrip { .. } => "run_strip",
            TaylorVar { .. } => "taylor_var",
            TaylorFromCoefficients(..) => "taylor_from_coefficients",
            TaylorOrder(..) => "taylor_order",
            TaylorCoeff(..) => "taylor_coeff",
            TaylorDerivative(..) => "taylor_derivative",
            TaylorNeg(..) => "taylor_neg",
            TaylorExp(..) => "taylor_exp",
            TaylorLog(..) => "taylor_log",
            TaylorPow(..) => "taylor_pow",
            TaylorAdd(..) => "taylor_add",
            TaylorSub(..) => "taylor_sub",
            TaylorMul(..) => "taylor_mul",
            TaylorDiv(..) => "taylor_div",
            TaylorMax(..) => "taylor_max",
            TaylorSubst(..) => "taylor_subst",
            TaylorCoeffs { .. } => "taylor_coeffs",
            TaylorCoeffsAt { .. } => "taylor_coeffs_at",
        }
    }

    /// The engine's answer.
    pub fn mine(&self, engine: &mut Engine) -> Answer {
        match self {
            Lit(z) => engine.lit(*z).map(Number),
            Var(v) => engine.var(*v).map(Number),
            Add(a, b) => engine.add(*a, *b).map(Number),
            Mul(a, b) => engine.mul(*a, *b).map(Number),
            Div(a, b) => engine.div(*a, *b).map(Number),
            Max(a, b) => engine.max(*a, *b).map(Number),
            Neg(a) => engine.neg(*a).map(Number),
            Exp(a) => engine.exp(*a).map(Number),
            Log(a) => engine.log(*a).map(Number),
            Pow(a, e) => engine.pow(*a, *e).map(Number),
            SubstituteVar { root, var, value } => engine.substitute_var(*root, *var, *value).map(Number),
            Derive { root, var } => engine.derive(*root, *var).map(Number),
            Evaluate(root, values) => engine.evaluate(*root, values).map(Number),
            EvaluateResidue(root, values) => engine.evaluate_residue(*root, values).map(Number),
            Print { root, room } => engine.print(*root, *room).map(Bytes),
            Write { root, room } => engine.write(*root, *room).map(Bytes),
            Read(file) => engine.read(file).map(Number),
            Strip { root, room } => engine.strip(*root, *room).map(Bytes),
            RunStrip { strip, values } => engine.run_strip(strip, values).map(Number),
            TaylorVar { x, order } => engine.taylor_var(*x, *order).map(Expansion),
            TaylorFromCoefficients(s) => engine.taylor_from_coefficients(s).map(Expansion),
            TaylorOrder(s) => engine.taylor_order(s).map(Number),
            TaylorCoeff(s, i) => engine.taylor_coeff(s, *i).map(Number),
            TaylorDerivative(s, i) => engine.taylor_derivative(s, *i).map(Number),
            TaylorNeg(s) => engine.taylor_neg(s).map(Expansion),
            TaylorExp(s) => engine.taylor_exp(s).map(Expansion),
            TaylorLog(s) => engine.taylor_log(s).map(Expansion),
            TaylorPow(s, e) => engine.taylor_pow(s, *e).map(Expansion),
            TaylorAdd(s, t) => engine.taylor_add(s, t).map(Expansion),
            TaylorSub(s, t) => engine.taylor_sub(s, t).map(Expansion),
            TaylorMul(s, t) => engine.taylor_mul(s, t).map(Expansion),
            TaylorDiv(s, t) => engine.taylor_div(s, t).map(Expansion),
            TaylorMax(s, t) => engine.taylor_max(s, t).map(Expansion),
            TaylorSubst(s, t) => engine.taylor_subst(s, t).map(Expansion),
            TaylorCoeffs { root, var, order } => engine.taylor_coeffs(*root, *var, *order).map(Expansion),
            TaylorCoeffsAt { root, var, point, order } => engine.taylor_coeffs_at(*root, *var, *point, *order).map(Expansion),
        }
    }

    /// The answer by document 01 and the Rust: "1 to 9 are checked first, smallest number first. Then the work runs .. 19 comes last."
    /// The pool keeps its rules on this side, so 1 does not arise. C-20: 28 is "checked after 9 and before 15", 27 "after 16 and before 19".
    pub fn theirs(&self) -> Answer {
        match self.refused_first() {
            Some(number) => Err(number),
            None => self.worked(),
        }
    }

    /// The smallest of 2 to 6 that holds.
    fn refused_first(&self) -> Option<u32> {
        let count = counted::count() as u64;
        if self.nodes().iter().any(|i| *i >= count) {
            return Some(2);
        }
        if self.variable().is_some_and(|v| v > 65_535) {
            return Some(3);
        }
        if self.literal().is_some_and(|z| z.unsigned_abs() > whole::MAX as u64) {
            return Some(4);
        }
        if !self.orders_ok() {
            return Some(5);
        }
        if !self.values_ok() {
            return Some(6);
        }
        None
    }

    /// The node numbers given.
    fn nodes(&self) -> Vec<u64> {
        match self {
            Lit(_) | Var(_) | Read(_) | RunStrip { .. } => vec![],
            Add(a, b) | Mul(a, b) | Div(a, b) | Max(a, b) => vec![*a, *b],
            Neg(a) | Exp(a) | Log(a) | Pow(a, _) => vec![*a],
            SubstituteVar { root, value, .. } => vec![*root, *value],
            Derive { root, .. } | Print { root, .. } | Write { root, .. } | Strip { root, .. } => vec![*root],
            Evaluate(root, _) | EvaluateResidue(root, _) => vec![*root],
            TaylorCoeffs { root, .. } | TaylorCoeffsAt { root, .. } => vec![*root],
            TaylorVar { x, .. } => vec![*x],
            TaylorFromCoefficients(s) | TaylorOrder(s) | TaylorCoeff(s, _) | TaylorDerivative(s, _) => s.nodes().to_vec(),
            TaylorNeg(s) | TaylorExp(s) | TaylorLog(s) | TaylorPow(s, _) => s.nodes().to_vec(),
            TaylorAdd(s, t) | TaylorSub(s, t) | TaylorMul(s, t) | TaylorDiv(s, t) | TaylorMax(s, t) | TaylorSubst(s, t) => {
                [s.nodes(), t.nodes()].concat()
            }
        }
    }

    fn variable(&self) -> Option<u64> {
        match self {
            Var(v) => Some(*v),
            SubstituteVar { var, .. } | Derive { var, .. } | TaylorCoeffs { var, .. } | TaylorCoeffsAt { var, .. } => Some(*var),
            _ => None,
        }
    }

    fn literal(&self) -> Option<i64> {
        match self {
            Lit(z) | TaylorCoeffsAt { point: z, .. } => Some(*z),
            _ => None,
        }
    }

    /// 5. "An order is above 24, an expansion's list has 0 or more than 25 entries, a coefficient index is outside its list, or `subst` gets
    /// two lists of unequal length."
    fn orders_ok(&self) -> bool {
        match self {
            TaylorVar { order, .. } | TaylorCoeffs { order, .. } | TaylorCoeffsAt { order, .. } => *order <= 24,
            TaylorCoeff(s, index) | TaylorDerivative(s, index) => s.length_ok() && (s.is_constant() || *index < s.order),
            TaylorFromCoefficients(s) | TaylorOrder(s) => s.length_ok(),
            TaylorNeg(s) | TaylorExp(s) | TaylorLog(s) | TaylorPow(s, _) => s.length_ok(),
            TaylorAdd(s, t) | TaylorSub(s, t) | TaylorMul(s, t) | TaylorDiv(s, t) | TaylorMax(s, t) => s.length_ok() && t.length_ok(),
            TaylorSubst(s, t) => s.length_ok() && t.length_ok() && (s.is_constant() || t.is_constant() || s.order == t.order),
            _ => true,
        }
    }

    /// 6. "A table of values has more than 65,536 entries, or a residue in it is 2,147,483,647 or more."
    fn values_ok(&self) -> bool {
        match self {
            Evaluate(_, values) | RunStrip { values, .. } => values.len() <= 65_536,
            EvaluateResidue(_, values) => values.len() <= 65_536 && values.iter().all(|x| (*x as u64) < values::MODULUS),
            _ => true,
        }
    }

    /// The work, by the Rust; node files by document 01's words, strips by the request's.
    fn worked(&self) -> Answer {
        match self {
            Read(bytes) => {
                let nodes = file::read(bytes, counted::count())?;
                Ok(Number(nodes.iter().map(|(kind, word)| oracle::raw(*kind, *word)).last().unwrap()))
            }
            Write { root, room } => within(file::written(&oracle::entries(), *root as usize), *room),
            Print { root, room } => within(rust(|| oracle::print(*root))?, *room),
            Strip { root, room } => within(rust(|| oracle::strip(*root))?, *room),
            RunStrip { strip, values } => machine::run(strip, values).map(|x| Number(bits(x))),
            TaylorVar { .. } | TaylorFromCoefficients(_) | TaylorNeg(_) | TaylorExp(_) | TaylorLog(_) | TaylorPow(..) => self.expanded(),
            TaylorAdd(..) | TaylorSub(..) | TaylorMul(..) | TaylorDiv(..) | TaylorMax(..) | TaylorSubst(..) => self.expanded(),
            TaylorCoeffs { .. } | TaylorCoeffsAt { .. } => self.expanded(),
            _ => self.numbered(),
        }
    }

    /// Work that gives a number.
    fn numbered(&self) -> Answer {
        let number = || match self {
            Lit(z) => oracle::lit(*z),
            Var(v) => oracle::var(*v),
            Add(a, b) => oracle::add(*a, *b),
            Mul(a, b) => oracle::mul(*a, *b),
            Div(a, b) => oracle::div(*a, *b),
            Max(a, b) => oracle::max(*a, *b),
            Neg(a) => oracle::neg(*a),
            Exp(a) => oracle::exp(*a),
            Log(a) => oracle::log(*a),
            Pow(a, e) => oracle::pow(*a, *e),
            SubstituteVar { root, var, value } => oracle::substitute_var(*root, *var, *value),
            Derive { root, var } => oracle::derive(*root, *var),
            Evaluate(root, values) => bits(oracle::evaluate(*root, values)),
            EvaluateResidue(root, values) => oracle::evaluate_residue(*root, values),
            TaylorOrder(s) => oracle::taylor_order(s),
            TaylorCoeff(s, i) => oracle::taylor_coeff(s, *i),
            TaylorDerivative(s, i) => oracle::taylor_derivative(s, *i),
            _ => unreachable!("{} gives no number", self.name()),
        };
        rust(number).map(Number)
    }

    /// Work that gives an expansion.
    fn expanded(&self) -> Answer {
        let expansion = || match self {
            TaylorVar { x, order } => oracle::taylor_var(*x, *order),
            TaylorFromCoefficients(s) => oracle::taylor_from_coefficients(s),
            TaylorNeg(s) => oracle::taylor_neg(s),
            TaylorExp(s) => oracle::taylor_exp(s),
            TaylorLog(s) => oracle::taylor_log(s),
            TaylorPow(s, e) => oracle::taylor_pow(s, *e),
            TaylorAdd(s, t) => oracle::taylor_add(s, t),
            TaylorSub(s, t) => oracle::taylor_sub(s, t),
            TaylorMul(s, t) => oracle::taylor_mul(s, t),
            TaylorDiv(s, t) => oracle::taylor_div(s, t),
            TaylorMax(s, t) => oracle::taylor_max(s, t),
            TaylorSubst(s, t) => oracle::taylor_subst(s, t),
            TaylorCoeffs { root, var, order } => oracle::taylor_coeffs(*root, *var, *order),
            TaylorCoeffsAt { root, var, point, order } => oracle::taylor_coeffs_at(*root, *var, *point, *order),
            _ => unreachable!("{} gives no expansion", self.name()),
        };
        rust(expansion).map(Expansion)
    }
}

/// 19. "The lent output is too short"
fn within(bytes: Vec<u8>, room: usize) -> Answer {
    if bytes.len() > room { Err(19) } else { Ok(Bytes(bytes)) }
}

/// "A NaN result is handed back with bits 7FF8000000000000".
pub fn bits(x: f64) -> u64 {
    if x.is_nan() { 0x7ff8_0000_0000_0000 } else { x.to_bits() }
}
