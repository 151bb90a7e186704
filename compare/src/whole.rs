//! Literals that are whole numbers, by document 01: 11 and 12 are panics with that number.
use crate::counted::refuse;
use crate::number::Number;
use num_traits::{One, Zero};
use std::fmt;
use std::ops::*;

pub const MAX: i64 = (1 << 53) - 1;

#[derive(Clone, Copy, Debug, PartialEq)]
pub struct Whole(pub i64);

#[inline]
fn folded(z: Option<i64>) -> Whole {
    match z {
        Some(z) if z.unsigned_abs() <= MAX as u64 => Whole(z),
        _ => refuse(12),
    }
}

impl Add for Whole {
    type Output = Self;
    fn add(self, o: Self) -> Self {
        folded(self.0.checked_add(o.0))
    }
}
impl Mul for Whole {
    type Output = Self;
    fn mul(self, o: Self) -> Self {
        folded(self.0.checked_mul(o.0))
    }
}
impl Neg for Whole {
    type Output = Self;
    fn neg(self) -> Self {
        folded(self.0.checked_neg())
    }
}
impl Sub for Whole {
    type Output = Self;
    fn sub(self, o: Self) -> Self {
        self + -o
    }
}
impl Div for Whole {
    type Output = Self;
    fn div(self, _: Self) -> Self {
        unreachable!("no rule divides literals")
    }
}
macro_rules! assign {
    ($($t:ident $f:ident $op:tt),*) => {$(
        impl $t for Whole {
            fn $f(&mut self, o: Self) {
                *self = *self $op o;
            }
        }
    )*};
}
assign!(AddAssign add_assign +, SubAssign sub_assign -, MulAssign mul_assign *, DivAssign div_assign /);

impl Zero for Whole {
    fn zero() -> Self {
        Whole(0)
    }
    fn is_zero(&self) -> bool {
        self.0 == 0
    }
}
impl One for Whole {
    fn one() -> Self {
        Whole(1)
    }
}
impl From<u32> for Whole {
    fn from(x: u32) -> Self {
        Whole(x as i64)
    }
}
impl fmt::Display for Whole {
    fn fmt(&self, f: &mut fmt::Formatter<'_>) -> fmt::Result {
        fmt::Display::fmt(&self.0, f)
    }
}
impl Number for Whole {
    fn exp(&self) -> Self {
        if self.0 == 0 { Whole(1) } else { refuse(11) }
    }
    fn log(&self) -> Self {
        if self.0 == 1 { Whole(0) } else { refuse(11) }
    }
    fn pow(&self, _: u32) -> Self {
        unreachable!("no rule takes a power of a literal")
    }
    fn max(&self, _: &Self) -> Self {
        unreachable!("no rule takes a maximum of literals")
    }
}
