//! Random calls on expansions.
use crate::call::{Call, Given, Series, ENDLESS, TERMS};
use crate::run::Run;

/// How many expansions of a pool are kept for further calls.
const KEPT: usize = 8;

impl Run {
    /// An expansion: one that an earlier call gave, a constant, a list, or one that is refused.
    fn series(&mut self) -> Series {
        let mut s = match self.random.below(16) {
            0..=7 if !self.kept.is_empty() => self.kept[self.random.below(self.kept.len() as u64) as usize],
            8..=10 => Series::constant(self.node()),
            _ => self.list(),
        };
        match self.random.below(48) {
            // "an expansion's list has 0 or more than 25 entries"
            0 => s.order = self.random.one_of(&[0, 26, u64::MAX - 1, 1 << 32, 1 << 63]),
            // more or fewer entries of the same array
            1 => s.order = 1 + self.random.below(TERMS as u64),
            2 => s.coeffs[self.random.below(3) as usize] = self.node(),
            _ => {}
        }
        self.past_the_end(&mut s);
        s
    }

    /// A list of nodes, mostly short: 25 entries need so many nodes that few further calls find room.
    fn list(&mut self) -> Series {
        let n = match self.random.below(16) {
            0 => TERMS as u64,
            1 | 2 => 1 + self.random.below(TERMS as u64),
            _ => 1 + self.random.below(4),
        };
        let count = self.count();
        let wrong = self.random.below(16) == 0;
        let nodes: Vec<u64> = (0..n).map(|_| if wrong { self.random.node(count) } else { self.random.below(count.max(1)) }).collect();
        Series::list(&nodes)
    }

    /// Entries past the end, which are not read, need be no nodes.
    fn past_the_end(&mut self, s: &mut Series) {
        if self.random.below(2) == 0 {
            let end = s.nodes().len();
            s.coeffs[end..].iter_mut().for_each(|c| *c = self.random.next());
        }
    }

    /// A second expansion, now and then as long as the first, or the first itself.
    fn second(&mut self, s: &Series) -> Series {
        let mut t = self.series();
        match self.random.below(6) {
            0 => return *s,
            1 | 2 if !t.is_constant() && (1..=TERMS as u64).contains(&s.order) => {
                (t.nodes().len()..TERMS).for_each(|i| t.coeffs[i] = t.coeffs[0]);
                t.order = s.order;
            }
            _ => {}
        }
        t
    }

    fn on_one(&mut self) -> Call {
        let s = self.series();
        match self.random.below(16) {
            0 => Call::TaylorFromCoefficients(s),
            1 => Call::TaylorOrder(s),
            2 | 3 => Call::TaylorCoeff(s, self.random.index(s.order)),
            4..=6 => Call::TaylorDerivative(s, self.random.index(s.order)),
            7 | 8 => Call::TaylorNeg(s),
            9 | 10 => Call::TaylorExp(s),
            11..=13 => Call::TaylorLog(s),
            _ => Call::TaylorPow(s, self.random.exponent()),
        }
    }

    fn on_two(&mut self) -> Call {
        let s = self.series();
        let t = self.second(&s);
        match self.random.below(16) {
            0..=2 => Call::TaylorAdd(s, t),
            3..=5 => Call::TaylorSub(s, t),
            6..=8 => Call::TaylorMul(s, t),
            9..=11 => Call::TaylorDiv(s, t),
            12 => Call::TaylorMax(s, t),
            _ => Call::TaylorSubst(s, t),
        }
    }

    fn of_expression(&mut self) -> Call {
        let (root, var, order) = (self.node(), self.random.variable(), self.random.order());
        if self.random.below(2) == 0 {
            return Call::TaylorCoeffs { root, var, order };
        }
        let point = if self.random.below(3) > 0 { self.random.below(7) as i64 - 3 } else { self.random.literal() };
        Call::TaylorCoeffsAt { root, var, point, order }
    }

    pub fn series_step(&mut self) {
        let call = match self.random.below(16) {
            0..=3 => self.of_expression(),
            4 | 5 => Call::TaylorVar { x: self.node(), order: self.random.order() },
            6..=10 => self.on_one(),
            _ => self.on_two(),
        };
        let Ok(Given::Expansion(s)) = self.both.call(&call) else { return };
        if self.kept.len() < KEPT {
            self.kept.push(s);
        } else {
            let at = self.random.below(KEPT as u64) as usize;
            self.kept[at] = s;
        }
    }
}
