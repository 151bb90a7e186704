//! Random calls on random pools.
use crate::both::Both;
use crate::call::{Answer, Call, Given, Series};
use crate::counted::{self, LIMIT};
use crate::random::Random;
use crate::symbolic::oracle;
use crate::{damage, file};
use std::time::{Duration, Instant};

pub struct Run {
    pub random: Random,
    pub both: Both,
    /// Expansions that calls on this pool gave.
    pub kept: Vec<Series>,
}

impl Run {
    pub fn new(seed: u64) -> Self {
        Run { random: Random(seed | 1), both: Both::new(), kept: Vec::new() }
    }

    pub fn count(&self) -> u64 {
        counted::count() as u64
    }

    pub fn node(&mut self) -> u64 {
        let count = self.count();
        self.random.node(count)
    }

    fn evaluate(&mut self, root: u64) -> Call {
        let n = self.random.values();
        Call::Evaluate(root, (0..n).map(|_| self.random.double()).collect())
    }

    fn evaluate_residue(&mut self, root: u64) -> Call {
        let n = self.random.values();
        Call::EvaluateResidue(root, (0..n).map(|_| if n < 100 { self.random.residue() } else { n as u32 }).collect())
    }

    /// A room about as long as the result, or as long as any can be.
    fn room(&mut self, result: Answer, most: usize) -> usize {
        let length = if let Ok(Given::Bytes(bytes)) = result { bytes.len() } else { 0 };
        match self.random.below(4) {
            0 => length,
            1 => length.saturating_sub(1),
            2 => self.random.below(100) as usize,
            _ => most + self.random.below(2) as usize,
        }
    }

    fn print(&mut self, root: u64) -> Call {
        let most = 65_535;
        let room = self.room(Call::Print { root, room: most }.theirs(), most);
        Call::Print { root, room }
    }

    fn write(&mut self, root: u64) -> Call {
        let most = 36_868;
        let room = self.room(Call::Write { root, room: most }.theirs(), most);
        Call::Write { root, room }
    }

    fn read(&mut self, root: u64) -> Call {
        let file = if root < self.count() && self.random.below(4) > 0 {
            file::written(&oracle::entries(), root as usize)
        } else {
            damage::random_file(&mut self.random)
        };
        Call::Read(damage::file(&mut self.random, file))
    }

    /// (b × a^m) × a^n, which random calls seldom come to, also as coefficients.
    fn powers(&mut self, a: u64, b: u64) {
        let (m, n) = (self.random.exponent(), self.random.exponent());
        let Ok(Given::Number(p)) = self.both.call(&Call::Pow(a, m)) else { return };
        let Ok(Given::Number(q)) = self.both.call(&Call::Pow(a, n)) else { return };
        let Ok(Given::Number(product)) = self.both.call(&Call::Mul(b, p)) else { return };
        let _ = self.both.call(&Call::Mul(product, q));
        let s = if self.random.below(2) == 0 { Series::constant(product) } else { Series::list(&[product, a]) };
        let t = if self.random.below(2) == 0 { Series::constant(q) } else { Series::list(&[q, q]) };
        let _ = self.both.call(&Call::TaylorMul(s, t));
    }

    /// A call that builds a node.
    fn building(&mut self, a: u64, b: u64) -> Call {
        match self.random.below(113) {
            0..=9 => Call::Lit(self.random.literal()),
            10..=15 => Call::Var(match self.random.below(8) {
                0 => 65_535 + self.random.below(2),
                1 => self.random.next(),
                _ => self.random.below(3),
            }),
            16..=34 => Call::Add(a, b),
            35..=62 => Call::Mul(a, b),
            63..=68 => Call::Div(a, b),
            69..=70 => Call::Max(a, b),
            71..=75 => Call::Neg(a),
            76..=84 => Call::Exp(a),
            85..=90 => Call::Log(a),
            91..=97 => Call::SubstituteVar { root: a, var: self.random.variable(), value: b },
            98..=103 => Call::Derive { root: a, var: self.random.variable() },
            _ => Call::Pow(a, self.random.exponent()),
        }
    }

    fn step(&mut self) {
        let (a, b) = (self.node(), self.node());
        let call = match self.random.below(220) {
            0..=4 => self.evaluate(a),
            5..=9 => self.evaluate_residue(a),
            10..=15 => self.print(a),
            16..=19 => self.write(a),
            20..=24 => self.read(a),
            25 => return damage::pool(&mut self.random, &mut self.both),
            26 => return self.powers(a, b),
            27..=82 => return self.series_step(),
            83..=102 => return self.strip_step(a),
            _ => self.building(a, b),
        };
        let _ = self.both.call(&call);
    }

    /// A fresh pool, now and then nearly full or deeply nested from the start.
    fn restart(&mut self) {
        self.both.forget_from(0);
        self.kept.clear();
        let fill = match self.random.below(6) {
            0 => LIMIT - 1 - self.random.below(30) as usize,
            1 => self.random.below(4000) as usize,
            _ => 0,
        };
        (0..fill).for_each(|i| {
            self.both.raw(1, (i % 3) as u64);
        });
        match self.random.below(8) {
            0 | 1 => self.nest(),
            2 | 3 => self.as_from_a_file(),
            _ => {}
        }
    }

    /// Nodes of any form, which a file may bring and no constructor makes.
    fn as_from_a_file(&mut self) {
        let n = (5 + self.random.below(40)).min(LIMIT as u64 - self.count());
        for _ in 0..n {
            let count = self.count();
            let (a, b) = (self.random.node(count), self.random.node(count));
            let entry = match 1 + self.random.below(9) as u8 {
                1 => (1, self.random.variable()),
                2 => (2, self.random.literal() as u64),
                8 => (8, (a & 0xffff_ffff) + ((self.random.exponent() as u64) << 32)),
                kind @ (6 | 7) => (kind, a),
                kind => (kind, (a & 0xffff_ffff) + (b << 32)),
            };
            if file::is_node(entry, count as usize) {
                self.both.raw(entry.0, entry.1);
            }
        }
    }

    /// Nested products and sums near depth 200, near the places of a strip, or of any depth, and sums doubled over and over, also near the longest strip.
    fn nest(&mut self) {
        let levels = match self.random.below(6) {
            0 => self.random.below(LIMIT as u64),
            1 => 124 + self.random.below(8),
            2 => 10 + self.random.below(8),
            _ => 195 + self.random.below(8),
        };
        if self.count() as usize + levels as usize + 4 > LIMIT {
            return;
        }
        let lit = self.both.raw(2, self.random.below(3));
        let mut top = self.both.raw(1, 0);
        let kind = self.random.below(4);
        for _ in 0..levels {
            // as nodes of a file would come in: no constructor makes them so
            let (k, w) = match kind {
                0 => (4, lit + (top << 32)),
                1 => (3, top + (lit << 32)),
                2 => (3, top + (top << 32)),
                _ => (7, top),
            };
            top = self.both.raw(k, w);
        }
    }

    /// Pools and calls on them, for a time.
    pub fn go(&mut self, time: Duration) {
        let start = Instant::now();
        while start.elapsed() < time {
            self.restart();
            let steps = 20 + self.random.below(400);
            (0..steps).for_each(|_| self.step());
        }
    }
}
