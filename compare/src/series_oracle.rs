// Included in the module of src/symbolic.rs beside oracle.rs: the Rust's `TaylorExpansion` over its expressions, by node numbers.
use crate::call::{Series, ENDLESS};

type Terms = TaylorExpansion<SymGenFun<Whole>>;

fn given(s: &Series) -> Terms {
    if s.order == ENDLESS {
        return TaylorExpansion::Constant(wrapped(s.coeffs[0]));
    }
    let coeffs: Vec<SymGenFun<Whole>> = s.coeffs[..s.order as usize].iter().map(|i| wrapped(*i)).collect();
    TaylorExpansion::from_coefficients(coeffs)
}

fn number(node: &SymGenFun<Whole>) -> u64 {
    node.root.number() as u64
}

/// "arrays of 25, 0 past the list's end in answers"
fn answered(e: Terms) -> Series {
    match e {
        TaylorExpansion::Constant(c) => Series::constant(number(&c)),
        TaylorExpansion::Polynomial { coeffs } => Series::list(&coeffs.iter().map(number).collect::<Vec<_>>()),
    }
}

pub fn taylor_var(x: u64, order: u64) -> Series {
    answered(TaylorExpansion::var(wrapped(x), order as usize))
}
/// The Rust's gives a list of what it is given; a constant is given back as it is.
pub fn taylor_from_coefficients(s: &Series) -> Series {
    answered(given(s))
}
pub fn taylor_order(s: &Series) -> u64 {
    given(s).order() as u64
}
pub fn taylor_coeff(s: &Series, index: u64) -> u64 {
    number(&given(s).coeff(index as usize))
}
pub fn taylor_derivative(s: &Series, index: u64) -> u64 {
    number(&given(s).derivative(index as usize))
}
pub fn taylor_neg(s: &Series) -> Series {
    answered(-given(s))
}
pub fn taylor_exp(s: &Series) -> Series {
    answered(given(s).exp())
}
pub fn taylor_log(s: &Series) -> Series {
    answered(given(s).log())
}
pub fn taylor_pow(s: &Series, exp: u32) -> Series {
    answered(given(s).pow(exp))
}
pub fn taylor_add(s: &Series, t: &Series) -> Series {
    answered(given(s) + given(t))
}
pub fn taylor_sub(s: &Series, t: &Series) -> Series {
    answered(given(s) - given(t))
}
pub fn taylor_mul(s: &Series, t: &Series) -> Series {
    answered(given(s) * given(t))
}
pub fn taylor_div(s: &Series, t: &Series) -> Series {
    answered(given(s) / given(t))
}
pub fn taylor_max(s: &Series, t: &Series) -> Series {
    answered(given(s).max(&given(t)))
}
pub fn taylor_subst(s: &Series, t: &Series) -> Series {
    answered(given(s).subst(&given(t)))
}
pub fn taylor_coeffs(root: u64, v: u64, order: u64) -> Series {
    answered(wrapped(root).taylor_coeffs(Var(v as usize), order as usize))
}
pub fn taylor_coeffs_at(root: u64, v: u64, point: i64, order: u64) -> Series {
    answered(wrapped(root).taylor_coeffs_at(Var(v as usize), &Whole(point), order as usize))
}
