//! The two arithmetics of evaluation, by document 01: doubles, and residues of the fixed modulus.
use crate::counted::refuse;
use crate::number::Number;
use num_traits::{One, Zero};
use std::cell::Cell;
use std::fmt;
use std::ops::*;

thread_local! {
    /// Whether a step was taken for which document 01's rule is not sure to be that of `F64`.
    static OWN_RULE: Cell<bool> = const { Cell::new(false) };
}

/// What a walk over `Double` gives, and whether `F64` must give the same: "where `F64`'s own pow and max .. differ from it" a step is marked.
pub fn with_agreement<T>(walk: impl FnOnce() -> T) -> (T, bool) {
    OWN_RULE.set(false);
    let given = walk();
    (given, !OWN_RULE.get())
}

pub const MODULUS: u64 = 2_147_483_647;

#[derive(Clone, Copy, Debug, PartialEq)]
pub struct Double(pub f64);

#[derive(Clone, Copy, Debug, PartialEq)]
pub struct Residue(pub u64);

/// The one residue whose product with the divisor is the dividend; 17 where the divisor has no inverse.
fn quotient(a: u64, d: u64) -> u64 {
    let (mut r0, mut r1, mut t0, mut t1) = (MODULUS as i128, d as i128, 0i128, 1i128);
    while r1 != 0 {
        let q = r0 / r1;
        (r0, r1) = (r1, r0 - q * r1);
        (t0, t1) = (t1, t0 - q * t1);
    }
    if r0 != 1 {
        refuse(17);
    }
    (a as i128 * t0.rem_euclid(MODULUS as i128) % MODULUS as i128) as u64
}

macro_rules! arithmetic {
    ($t:ident, $neg:expr, $add:expr, $mul:expr, $div:expr, $from:expr) => {
        impl Neg for $t {
            type Output = Self;
            fn neg(self) -> Self {
                $t($neg(self.0))
            }
        }
        impl Add for $t {
            type Output = Self;
            fn add(self, o: Self) -> Self {
                $t($add(self.0, o.0))
            }
        }
        impl Sub for $t {
            type Output = Self;
            fn sub(self, o: Self) -> Self {
                self + -o
            }
        }
        impl Mul for $t {
            type Output = Self;
            fn mul(self, o: Self) -> Self {
                $t($mul(self.0, o.0))
            }
        }
        impl Div for $t {
            type Output = Self;
            fn div(self, o: Self) -> Self {
                $t($div(self.0, o.0))
            }
        }
        impl AddAssign for $t {
            fn add_assign(&mut self, o: Self) {
                *self = *self + o;
            }
        }
        impl SubAssign for $t {
            fn sub_assign(&mut self, o: Self) {
                *self = *self - o;
            }
        }
        impl MulAssign for $t {
            fn mul_assign(&mut self, o: Self) {
                *self = *self * o;
            }
        }
        impl DivAssign for $t {
            fn div_assign(&mut self, o: Self) {
                *self = *self / o;
            }
        }
        impl Zero for $t {
            fn zero() -> Self {
                $t($from(0))
            }
            fn is_zero(&self) -> bool {
                self.0 == $from(0)
            }
        }
        impl One for $t {
            fn one() -> Self {
                $t($from(1))
            }
        }
        impl From<u32> for $t {
            fn from(x: u32) -> Self {
                $t($from(x))
            }
        }
        impl fmt::Display for $t {
            fn fmt(&self, f: &mut fmt::Formatter<'_>) -> fmt::Result {
                fmt::Display::fmt(&self.0, f)
            }
        }
    };
}

arithmetic!(Double, |x: f64| -x, |x: f64, y: f64| x + y, |x: f64, y: f64| x * y, |x: f64, y: f64| x / y, |n: u32| n as f64);
arithmetic!(
    Residue,
    |x: u64| (MODULUS - x) % MODULUS,
    |x: u64, y: u64| (x + y) % MODULUS,
    |x: u64, y: u64| x * y % MODULUS,
    quotient,
    |n: u32| n as u64 % MODULUS
);

impl Number for Double {
    fn exp(&self) -> Self {
        refuse(16)
    }
    fn log(&self) -> Self {
        refuse(16)
    }
    /// "Pow starts at 1, takes the exponent's bits from the lowest, multiplies where a bit is one, then squares while higher bits remain."
    /// Of a square and a cube every order of products gives the same; from 4 on `F64` has the platform's order.
    fn pow(&self, mut exp: u32) -> Self {
        if exp > 3 {
            OWN_RULE.set(true);
        }
        let (mut res, mut base) = (1.0, self.0);
        loop {
            if exp & 1 == 1 {
                res *= base;
            }
            exp >>= 1;
            if exp == 0 {
                return Double(res);
            }
            base *= base;
        }
    }
    /// `F64` gives the right value unless the left is greater.
    fn max(&self, o: &Self) -> Self {
        if o.0.is_nan() {
            OWN_RULE.set(true);
        }
        if self.0 > o.0 || o.0.is_nan() { *self } else { *o }
    }
}

impl Number for Residue {
    fn exp(&self) -> Self {
        refuse(16)
    }
    fn log(&self) -> Self {
        refuse(16)
    }
    fn pow(&self, mut exp: u32) -> Self {
        let (mut res, mut base) = (1 % MODULUS, self.0);
        while exp > 0 {
            if exp & 1 == 1 {
                res = res * base % MODULUS;
            }
            base = base * base % MODULUS;
            exp >>= 1;
        }
        Residue(res)
    }
    fn max(&self, _: &Self) -> Self {
        refuse(16)
    }
}
