//! The cases: each is run by the engine and by the Rust on the same input.
use crate::values::Double;
use crate::engine::{self, Expansion, Pool, FILE_MAX, LIST, STRIP_MAX, TEXT_MAX};
use crate::number::Number;
use crate::ppl::Var;
use crate::symbolic::SymGenFun;
use crate::univariate_taylor::TaylorExpansion;
use crate::whole::Whole;
use std::fmt::Write;

#[derive(Clone, Copy, PartialEq, Debug)]
pub enum Operation {
    Build,
    Derive,
    Substitute,
    Evaluate,
    Print,
    Write,
    Read,
    Strip,
    RunStrip,
    /// To an order, at the point 1 or at the variable itself.
    ExpandAt(u64),
    Expand(u64),
    /// A quotient of an exp and a log, which have their recurrences.
    ExpandMixed(u64),
    /// Of a list of 25 entries x0, its size the order: a factorial times a coefficient.
    ListDerivative,
}
use Operation::*;

/// Sizes are terms of a polynomial; those of expansions, of one in Horner's form, are chosen for the pool's 4,096 nodes. 18! is the last factorial that is a literal.
pub const OPERATIONS: [(Operation, &str, &[u64]); 15] = [
    (Build, "build", &[25, 100, 300]),
    (Derive, "derive", &[25, 100, 300]),
    (Substitute, "substitute", &[25, 100, 300]),
    (Evaluate, "evaluate", &[25, 100, 300]),
    (Print, "print", &[25, 100, 300]),
    (ExpandAt(8), "expand8_at", &[4, 12, 40, 80]),
    (ExpandAt(24), "expand24_at", &[3, 7, 14]),
    (Expand(8), "expand8", &[4, 12, 40, 80]),
    (Expand(24), "expand24", &[3, 7, 14]),
    (ExpandMixed(8), "mixed8", &[3, 6, 10]),
    (ListDerivative, "derivative", &[3, 6, 12, 18]),
    (Write, "write", &[25, 100, 300]),
    (Read, "read", &[25, 100, 300]),
    (Strip, "strip", &[25, 100, 300]),
    (RunStrip, "run_strip", &[25, 100, 300]),
];

/// How many points an expression is evaluated at, and a strip run.
pub const POINTS: u64 = 1000;

/// The coefficient of a power.
fn coefficient(k: u64) -> i64 {
    (k % 7) as i64 + 2
}

/// A point near 1, so that no power leaves the doubles.
pub fn point(j: u64) -> f64 {
    1.0 + j as f64 / 4096.0
}

/// One side of a case: what is put back before each run is not in its time.
pub trait Side {
    fn prepare(&mut self);
    fn work(&mut self);
    /// What the last run gave, as bytes.
    fn answer(&mut self) -> Vec<u8>;
}

pub struct Engine {
    operation: Operation,
    size: u64,
    pool: Pool,
    /// The count before each run, the expression and what a variable is replaced by.
    start: u64,
    root: u64,
    value: u64,
    out: Vec<u8>,
    file: Vec<u8>,
    node: u64,
    bits: u64,
    expansion: Expansion,
}

/// The polynomial of a number of terms, from the constant on.
pub fn polynomial(pool: &mut Pool, terms: u64) -> u64 {
    let x = pool.var(0);
    let mut sum = pool.lit(coefficient(0));
    for k in 1..terms {
        let factor = pool.lit(coefficient(k));
        let power = pool.pow(x, k as u32);
        let term = pool.mul(factor, power);
        sum = pool.add(sum, term);
    }
    sum
}

/// 1 + x + x^2 + .. in Horner's form.
pub fn horner(pool: &mut Pool, terms: u64) -> u64 {
    let x = pool.var(0);
    let mut sum = pool.lit(1);
    for k in 1..terms {
        let product = pool.mul(sum, x);
        let one = pool.lit(if k % 2 == 0 { 1 } else { 2 });
        sum = pool.add(product, one);
    }
    sum
}

/// exp P / log P, P a polynomial in Horner's form times x.
fn mixed(pool: &mut Pool, terms: u64) -> u64 {
    let sum = horner(pool, terms);
    let x = pool.var(0);
    let inner = pool.mul(sum, x);
    let (above, below) = (pool.exp(inner), pool.log(inner));
    pool.div(above, below)
}

impl Engine {
    pub fn new(operation: Operation, size: u64) -> Self {
        let mut pool = Pool::new();
        let root = match operation {
            Build => 0,
            ExpandAt(_) | Expand(_) => horner(&mut pool, size),
            ExpandMixed(_) => mixed(&mut pool, size),
            ListDerivative => pool.var(0),
            _ => polynomial(&mut pool, size),
        };
        let mut value = 0;
        if operation == Substitute {
            let (y, one) = (pool.var(1), pool.lit(1));
            value = pool.add(y, one);
        }
        let mut file = vec![0; FILE_MAX];
        if operation == Read {
            let length = pool.write(root, &mut file);
            file.truncate(length);
            pool.back_to(0);
        }
        if operation == RunStrip {
            file = vec![0; STRIP_MAX];
            let length = pool.strip(root, &mut file);
            file.truncate(length);
        }
        // the list that is derived, and the place for the answers of expansions
        let expansion = Expansion { order: LIST as u64, coeffs: [root; LIST] };
        Engine { operation, size, start: pool.count, pool, root, value, out: vec![0; TEXT_MAX], file, node: 0, bits: 0, expansion }
    }
}

impl Side for Engine {
    fn prepare(&mut self) {
        self.pool.back_to(self.start);
    }
    fn work(&mut self) {
        let pool = &mut self.pool;
        match self.operation {
            Build => self.node = polynomial(pool, self.size),
            Derive => self.node = pool.derive(self.root, 0),
            Substitute => self.node = pool.substitute_var(self.root, 0, self.value),
            Evaluate => self.bits = (0..POINTS).fold(0, |bits, j| bits ^ pool.evaluate(self.root, &[point(j)])),
            Print => self.bits = pool.print(self.root, &mut self.out) as u64,
            Write => self.bits = pool.write(self.root, &mut self.file) as u64,
            Read => self.node = pool.read(&self.file),
            Strip => self.bits = pool.strip(self.root, &mut self.out) as u64,
            RunStrip => self.bits = (0..POINTS).fold(0, |bits, j| bits ^ engine::run_strip(&self.file, &[point(j)])),
            ExpandAt(order) => self.expansion = pool.expand(self.root, Some(1), order),
            Expand(order) | ExpandMixed(order) => self.expansion = pool.expand(self.root, None, order),
            ListDerivative => self.node = pool.derivative(&self.expansion, self.size),
        }
    }
    fn answer(&mut self) -> Vec<u8> {
        match self.operation {
            Build | Derive | Substitute | Read | ListDerivative => {
                let length = self.pool.print(self.node, &mut self.out);
                self.out[..length].to_vec()
            }
            Evaluate | RunStrip => self.bits.to_le_bytes().to_vec(),
            Print | Strip => self.out[..self.bits as usize].to_vec(),
            Write => self.file[..self.bits as usize].to_vec(),
            ExpandAt(_) | Expand(_) => {
                let list = self.expansion.coeffs[..self.expansion.order as usize].iter();
                list.flat_map(|node| self.pool.evaluate(*node, &[1.0]).to_le_bytes()).collect()
            }
            // not evaluated; the last coefficient's text is too long: the first three
            ExpandMixed(_) => {
                let list = self.expansion.coeffs[..3].iter();
                list.flat_map(|node| {
                    let length = self.pool.print(*node, &mut self.out);
                    self.out[..length].to_vec()
                }).collect()
            }
        }
    }
}

type Expression = SymGenFun<Whole>;

pub struct Rust {
    operation: Operation,
    size: u64,
    root: Expression,
    value: Expression,
    given: Option<Expression>,
    list: TaylorExpansion<Expression>,
    expansion: Option<TaylorExpansion<Expression>>,
    text: String,
    bits: u64,
}

fn lit(z: i64) -> Expression {
    SymGenFun::lit(Whole(z))
}

fn rust_polynomial(terms: u64) -> Expression {
    let x = SymGenFun::var(Var(0));
    let mut sum = lit(coefficient(0));
    for k in 1..terms {
        let factor = lit(coefficient(k));
        sum = sum + factor * x.pow(k as u32);
    }
    sum
}

fn rust_horner(terms: u64) -> Expression {
    let x = SymGenFun::var(Var(0));
    let mut sum = lit(1);
    for k in 1..terms {
        sum = sum * x.clone() + lit(if k % 2 == 0 { 1 } else { 2 });
    }
    sum
}

fn value(root: &Expression, x: f64) -> u64 {
    let values = [x];
    root.evaluate(|z| Double(z.0 as f64), |v| Double(values[v.id()])).0.to_bits()
}

impl Rust {
    pub fn new(operation: Operation, size: u64) -> Self {
        let value = SymGenFun::var(Var(1)) + lit(1);
        let root = match operation {
            ExpandAt(_) | Expand(_) => rust_horner(size),
            ExpandMixed(_) => {
                let inner = rust_horner(size) * SymGenFun::var(Var(0));
                inner.exp() / inner.log()
            }
            _ => rust_polynomial(size),
        };
        let list = TaylorExpansion::from_coefficients(vec![SymGenFun::var(Var(0)); LIST]);
        Rust { operation, size, root, value, given: None, list, expansion: None, text: String::with_capacity(TEXT_MAX), bits: 0 }
    }
}

impl Side for Rust {
    fn prepare(&mut self) {
        self.given = None;
        self.expansion = None;
        self.text.clear();
    }
    fn work(&mut self) {
        match self.operation {
            Build => self.given = Some(rust_polynomial(self.size)),
            Derive => self.given = Some(self.root.derive(Var(0))),
            Substitute => self.given = Some(self.root.substitute_var(Var(0), self.value.clone())),
            Evaluate => self.bits = (0..POINTS).fold(0, |bits, j| bits ^ value(&self.root, point(j))),
            Print => write!(self.text, "{}", self.root).unwrap(),
            Write | Read | Strip | RunStrip => {}
            ExpandAt(order) => self.expansion = Some(self.root.taylor_coeffs_at(Var(0), &Whole(1), order as usize)),
            Expand(order) | ExpandMixed(order) => self.expansion = Some(self.root.taylor_coeffs(Var(0), order as usize)),
            ListDerivative => self.given = Some(self.list.derivative(self.size as usize)),
        }
    }
    fn answer(&mut self) -> Vec<u8> {
        match self.operation {
            Build | Derive | Substitute | ListDerivative => self.given.as_ref().unwrap().to_string().into_bytes(),
            Evaluate => self.bits.to_le_bytes().to_vec(),
            Print => self.text.clone().into_bytes(),
            Write | Read | Strip | RunStrip => Vec::new(),
            ExpandAt(_) | Expand(_) => {
                let expansion = self.expansion.as_ref().unwrap();
                (0..expansion.order()).flat_map(|k| value(&expansion.coeff(k), 1.0).to_le_bytes()).collect()
            }
            ExpandMixed(_) => (0..3).flat_map(|k| self.expansion.as_ref().unwrap().coeff(k).to_string().into_bytes()).collect(),
        }
    }
}

/// The Rust has no files and no strips.
pub fn in_rust(operation: Operation) -> bool {
    !matches!(operation, Write | Read | Strip | RunStrip)
}
