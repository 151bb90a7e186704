//! Bunlayog from Rust: the C functions of include/bunlayog.h, which says what each does, and over them a pool that is safe to use. A file to copy:
//! `mod bunlayog;`, and link libbunlayog.a (`rustc first.rs -L crates/bunlayog/out`, or in a build script `cargo:rustc-link-search`).
#![allow(dead_code)]
use std::fmt;

pub const LIMIT: usize = 4096;
pub const TERMS: usize = 25;
pub const TEXT_MAX: usize = 65535;
pub const FILE_MAX: usize = 36868;
pub const STRIP_MAX: usize = 65535;
pub const PLACES_MAX: usize = 128;
/// The length of an expansion that is a constant.
pub const CONSTANT: u64 = u64::MAX;

/// The C functions as they are. No pointer may be null, and what a call writes may not overlap anything else that it is lent.
pub mod raw {
    #[link(name = "bunlayog", kind = "static")]
    extern "C" {
        pub fn bunlayog_check(kinds: *const u8, kinds_len: usize, words: *const u64, words_len: usize, count: u64) -> u32;
        pub fn bunlayog_lit(kinds: *mut u8, kinds_len: usize, words: *mut u64, words_len: usize, count: *mut u64, value: i64, node: *mut u64) -> u32;
        pub fn bunlayog_var(kinds: *mut u8, kinds_len: usize, words: *mut u64, words_len: usize, count: *mut u64, number: u64, node: *mut u64) -> u32;
        pub fn bunlayog_add(kinds: *mut u8, kinds_len: usize, words: *mut u64, words_len: usize, count: *mut u64, lhs: u64, rhs: u64, node: *mut u64) -> u32;
        pub fn bunlayog_mul(kinds: *mut u8, kinds_len: usize, words: *mut u64, words_len: usize, count: *mut u64, lhs: u64, rhs: u64, node: *mut u64) -> u32;
        pub fn bunlayog_div(kinds: *mut u8, kinds_len: usize, words: *mut u64, words_len: usize, count: *mut u64, lhs: u64, rhs: u64, node: *mut u64) -> u32;
        pub fn bunlayog_max(kinds: *mut u8, kinds_len: usize, words: *mut u64, words_len: usize, count: *mut u64, lhs: u64, rhs: u64, node: *mut u64) -> u32;
        pub fn bunlayog_neg(kinds: *mut u8, kinds_len: usize, words: *mut u64, words_len: usize, count: *mut u64, arg: u64, node: *mut u64) -> u32;
        pub fn bunlayog_exp(kinds: *mut u8, kinds_len: usize, words: *mut u64, words_len: usize, count: *mut u64, arg: u64, node: *mut u64) -> u32;
        pub fn bunlayog_log(kinds: *mut u8, kinds_len: usize, words: *mut u64, words_len: usize, count: *mut u64, arg: u64, node: *mut u64) -> u32;
        pub fn bunlayog_pow(kinds: *mut u8, kinds_len: usize, words: *mut u64, words_len: usize, count: *mut u64, base: u64, exp: u32, node: *mut u64) -> u32;
        pub fn bunlayog_substitute_var(kinds: *mut u8, kinds_len: usize, words: *mut u64, words_len: usize, count: *mut u64, root: u64, var: u64, value: u64, node: *mut u64) -> u32;
        pub fn bunlayog_derive(kinds: *mut u8, kinds_len: usize, words: *mut u64, words_len: usize, count: *mut u64, root: u64, var: u64, node: *mut u64) -> u32;
        pub fn bunlayog_evaluate(kinds: *const u8, kinds_len: usize, words: *const u64, words_len: usize, count: u64, root: u64, values: *const f64, values_len: usize, bits: *mut u64) -> u32;
        pub fn bunlayog_evaluate_residue(kinds: *const u8, kinds_len: usize, words: *const u64, words_len: usize, count: u64, root: u64, values: *const u32, values_len: usize, residue: *mut u32) -> u32;
        pub fn bunlayog_print(kinds: *const u8, kinds_len: usize, words: *const u64, words_len: usize, count: u64, root: u64, out: *mut u8, out_len: usize, written: *mut u64) -> u32;
        pub fn bunlayog_write(kinds: *const u8, kinds_len: usize, words: *const u64, words_len: usize, count: u64, root: u64, out: *mut u8, out_len: usize, written: *mut u64) -> u32;
        pub fn bunlayog_read(kinds: *mut u8, kinds_len: usize, words: *mut u64, words_len: usize, count: *mut u64, file: *const u8, file_len: usize, root: *mut u64) -> u32;
        pub fn bunlayog_strip(kinds: *const u8, kinds_len: usize, words: *const u64, words_len: usize, count: u64, root: u64, out: *mut u8, out_len: usize, written: *mut u64) -> u32;
        pub fn bunlayog_run_strip(strip: *const u8, strip_len: usize, values: *const f64, values_len: usize, bits: *mut u64) -> u32;
        pub fn bunlayog_taylor_var(kinds: *mut u8, kinds_len: usize, words: *mut u64, words_len: usize, count: *mut u64, x: u64, order: u64, length_out: *mut u64, coeffs_out: *mut u64) -> u32;
        pub fn bunlayog_taylor_from_coefficients(kinds: *const u8, kinds_len: usize, words: *const u64, words_len: usize, count: u64, length: u64, coeffs: *const u64, length_out: *mut u64, coeffs_out: *mut u64) -> u32;
        pub fn bunlayog_taylor_order(kinds: *const u8, kinds_len: usize, words: *const u64, words_len: usize, count: u64, length: u64, coeffs: *const u64, length_out: *mut u64) -> u32;
        pub fn bunlayog_taylor_coeff(kinds: *mut u8, kinds_len: usize, words: *mut u64, words_len: usize, count: *mut u64, length: u64, coeffs: *const u64, index: u64, node: *mut u64) -> u32;
        pub fn bunlayog_taylor_derivative(kinds: *mut u8, kinds_len: usize, words: *mut u64, words_len: usize, count: *mut u64, length: u64, coeffs: *const u64, index: u64, node: *mut u64) -> u32;
        pub fn bunlayog_taylor_exp(kinds: *mut u8, kinds_len: usize, words: *mut u64, words_len: usize, count: *mut u64, length: u64, coeffs: *const u64, length_out: *mut u64, coeffs_out: *mut u64) -> u32;
        pub fn bunlayog_taylor_log(kinds: *mut u8, kinds_len: usize, words: *mut u64, words_len: usize, count: *mut u64, length: u64, coeffs: *const u64, length_out: *mut u64, coeffs_out: *mut u64) -> u32;
        pub fn bunlayog_taylor_neg(kinds: *mut u8, kinds_len: usize, words: *mut u64, words_len: usize, count: *mut u64, length: u64, coeffs: *const u64, length_out: *mut u64, coeffs_out: *mut u64) -> u32;
        pub fn bunlayog_taylor_pow(kinds: *mut u8, kinds_len: usize, words: *mut u64, words_len: usize, count: *mut u64, length: u64, coeffs: *const u64, exp: u32, length_out: *mut u64, coeffs_out: *mut u64) -> u32;
        pub fn bunlayog_taylor_add(kinds: *mut u8, kinds_len: usize, words: *mut u64, words_len: usize, count: *mut u64, lhs_length: u64, lhs: *const u64, rhs_length: u64, rhs: *const u64, length_out: *mut u64, coeffs_out: *mut u64) -> u32;
        pub fn bunlayog_taylor_sub(kinds: *mut u8, kinds_len: usize, words: *mut u64, words_len: usize, count: *mut u64, lhs_length: u64, lhs: *const u64, rhs_length: u64, rhs: *const u64, length_out: *mut u64, coeffs_out: *mut u64) -> u32;
        pub fn bunlayog_taylor_mul(kinds: *mut u8, kinds_len: usize, words: *mut u64, words_len: usize, count: *mut u64, lhs_length: u64, lhs: *const u64, rhs_length: u64, rhs: *const u64, length_out: *mut u64, coeffs_out: *mut u64) -> u32;
        pub fn bunlayog_taylor_div(kinds: *mut u8, kinds_len: usize, words: *mut u64, words_len: usize, count: *mut u64, lhs_length: u64, lhs: *const u64, rhs_length: u64, rhs: *const u64, length_out: *mut u64, coeffs_out: *mut u64) -> u32;
        pub fn bunlayog_taylor_max(kinds: *mut u8, kinds_len: usize, words: *mut u64, words_len: usize, count: *mut u64, lhs_length: u64, lhs: *const u64, rhs_length: u64, rhs: *const u64, length_out: *mut u64, coeffs_out: *mut u64) -> u32;
        pub fn bunlayog_taylor_subst(kinds: *mut u8, kinds_len: usize, words: *mut u64, words_len: usize, count: *mut u64, lhs_length: u64, lhs: *const u64, rhs_length: u64, rhs: *const u64, length_out: *mut u64, coeffs_out: *mut u64) -> u32;
        pub fn bunlayog_taylor_coeffs(kinds: *mut u8, kinds_len: usize, words: *mut u64, words_len: usize, count: *mut u64, root: u64, var: u64, order: u64, length_out: *mut u64, coeffs_out: *mut u64) -> u32;
        pub fn bunlayog_taylor_coeffs_at(kinds: *mut u8, kinds_len: usize, words: *mut u64, words_len: usize, count: *mut u64, root: u64, var: u64, x: i64, order: u64, length_out: *mut u64, coeffs_out: *mut u64) -> u32;
    }
}

/// The number of a refusal; include/bunlayog.h names them.
#[derive(Clone, Copy, Debug, PartialEq, Eq)]
pub struct Refused(pub u32);

impl fmt::Display for Refused {
    fn fmt(&self, f: &mut fmt::Formatter<'_>) -> fmt::Result {
        write!(f, "refused {}", self.0)
    }
}

impl std::error::Error for Refused {}

fn accepted<T>(number: u32, answer: T) -> Result<T, Refused> {
    if number == 0 { Ok(answer) } else { Err(Refused(number)) }
}

/// 1 to 25 node numbers, coefficient 0 first, or a constant, whose node is entry 0.
#[derive(Clone, Copy, Debug, PartialEq, Eq)]
pub struct Expansion {
    pub length: u64,
    pub coeffs: [u64; TERMS],
}

impl Expansion {
    /// The coefficients that there are: of a constant the one.
    pub fn entries(&self) -> &[u64] {
        let n = if self.length == CONSTANT { 1 } else { self.length.min(TERMS as u64) };
        &self.coeffs[..n as usize]
    }
}

/// Both tables and the count. Every call checks them, so that any contents are safe to lend.
#[derive(Clone)]
pub struct Pool {
    pub kinds: [u8; LIMIT],
    pub words: [u64; LIMIT],
    pub count: u64,
}

/// Calls that give a node.
macro_rules! nodes {
    ($($name:ident = $c:ident($($arg:ident: $t:ty),*);)*) => {$(
        pub fn $name(&mut self, $($arg: $t),*) -> Result<u64, Refused> {
            let mut node = 0;
            let number = unsafe { raw::$c(self.kinds.as_mut_ptr(), LIMIT, self.words.as_mut_ptr(), LIMIT, &mut self.count, $($arg,)* &mut node) };
            accepted(number, node)
        }
    )*};
}

/// Calls that give a node from an expansion.
macro_rules! entries {
    ($($name:ident = $c:ident;)*) => {$(
        pub fn $name(&mut self, e: &Expansion, index: u64) -> Result<u64, Refused> {
            let mut node = 0;
            let number = unsafe {
                raw::$c(self.kinds.as_mut_ptr(), LIMIT, self.words.as_mut_ptr(), LIMIT, &mut self.count, e.length, e.coeffs.as_ptr(), index, &mut node)
            };
            accepted(number, node)
        }
    )*};
}

/// Calls that give an expansion: from expansions, and then from other arguments.
macro_rules! expansions {
    ($($name:ident = $c:ident($($e:ident),*; $($arg:ident: $t:ty),*);)*) => {$(
        pub fn $name(&mut self, $($e: &Expansion,)* $($arg: $t),*) -> Result<Expansion, Refused> {
            let mut given = Expansion { length: 0, coeffs: [0; TERMS] };
            let number = unsafe {
                raw::$c(self.kinds.as_mut_ptr(), LIMIT, self.words.as_mut_ptr(), LIMIT, &mut self.count,
                    $($e.length, $e.coeffs.as_ptr(),)* $($arg,)* &mut given.length, given.coeffs.as_mut_ptr())
            };
            accepted(number, given)
        }
    )*};
}

/// Calls that give bytes.
macro_rules! bytes {
    ($($name:ident = $c:ident($most:ident);)*) => {$(
        pub fn $name(&self, root: u64) -> Result<Vec<u8>, Refused> {
            let mut out = vec![0; $most];
            let mut written = 0;
            let number = unsafe {
                raw::$c(self.kinds.as_ptr(), LIMIT, self.words.as_ptr(), LIMIT, self.count, root, out.as_mut_ptr(), out.len(), &mut written)
            };
            out.truncate(written as usize);
            accepted(number, out)
        }
    )*};
}

/// Runs a key strip, which needs no pool: any bytes are safe to run. Entry v of the values is the value of variable v.
pub fn run_strip(strip: &[u8], values: &[f64]) -> Result<f64, Refused> {
    let mut bits = 0;
    let number = unsafe { raw::bunlayog_run_strip(strip.as_ptr(), strip.len(), values.as_ptr(), values.len(), &mut bits) };
    accepted(number, f64::from_bits(bits))
}

impl Pool {
    /// An empty pool.
    pub fn new() -> Box<Pool> {
        Box::new(Pool { kinds: [0; LIMIT], words: [0; LIMIT], count: 0 })
    }

    pub fn check(&self) -> Result<(), Refused> {
        let number = unsafe { raw::bunlayog_check(self.kinds.as_ptr(), LIMIT, self.words.as_ptr(), LIMIT, self.count) };
        accepted(number, ())
    }

    nodes! {
        lit = bunlayog_lit(value: i64);
        var = bunlayog_var(number: u64);
        add = bunlayog_add(lhs: u64, rhs: u64);
        mul = bunlayog_mul(lhs: u64, rhs: u64);
        div = bunlayog_div(lhs: u64, rhs: u64);
        max = bunlayog_max(lhs: u64, rhs: u64);
        neg = bunlayog_neg(arg: u64);
        exp = bunlayog_exp(arg: u64);
        log = bunlayog_log(arg: u64);
        pow = bunlayog_pow(base: u64, exponent: u32);
        substitute_var = bunlayog_substitute_var(root: u64, var: u64, value: u64);
        derive = bunlayog_derive(root: u64, var: u64);
    }

    /// Entry v of the values is the value of variable v. Of a NaN the bits are always the same.
    pub fn evaluate(&self, root: u64, values: &[f64]) -> Result<f64, Refused> {
        let mut bits = 0;
        let number = unsafe {
            raw::bunlayog_evaluate(self.kinds.as_ptr(), LIMIT, self.words.as_ptr(), LIMIT, self.count, root, values.as_ptr(), values.len(), &mut bits)
        };
        accepted(number, f64::from_bits(bits))
    }

    pub fn evaluate_residue(&self, root: u64, values: &[u32]) -> Result<u32, Refused> {
        let mut residue = 0;
        let number = unsafe {
            raw::bunlayog_evaluate_residue(self.kinds.as_ptr(), LIMIT, self.words.as_ptr(), LIMIT, self.count, root, values.as_ptr(), values.len(), &mut residue)
        };
        accepted(number, residue)
    }

    bytes! {
        print_bytes = bunlayog_print(TEXT_MAX);
        write = bunlayog_write(FILE_MAX);
        strip = bunlayog_strip(STRIP_MAX);
    }

    /// A text is ASCII.
    pub fn print(&self, root: u64) -> Result<String, Refused> {
        Ok(self.print_bytes(root)?.into_iter().map(char::from).collect())
    }

    pub fn read(&mut self, file: &[u8]) -> Result<u64, Refused> {
        let mut root = 0;
        let number = unsafe {
            raw::bunlayog_read(self.kinds.as_mut_ptr(), LIMIT, self.words.as_mut_ptr(), LIMIT, &mut self.count, file.as_ptr(), file.len(), &mut root)
        };
        accepted(number, root)
    }

    entries! {
        taylor_coeff = bunlayog_taylor_coeff;
        taylor_derivative = bunlayog_taylor_derivative;
    }

    expansions! {
        taylor_var = bunlayog_taylor_var(; x: u64, order: u64);
        taylor_exp = bunlayog_taylor_exp(e;);
        taylor_log = bunlayog_taylor_log(e;);
        taylor_neg = bunlayog_taylor_neg(e;);
        taylor_pow = bunlayog_taylor_pow(e; exponent: u32);
        taylor_add = bunlayog_taylor_add(lhs, rhs;);
        taylor_sub = bunlayog_taylor_sub(lhs, rhs;);
        taylor_mul = bunlayog_taylor_mul(lhs, rhs;);
        taylor_div = bunlayog_taylor_div(lhs, rhs;);
        taylor_max = bunlayog_taylor_max(lhs, rhs;);
        taylor_subst = bunlayog_taylor_subst(lhs, rhs;);
        taylor_coeffs = bunlayog_taylor_coeffs(; root: u64, var: u64, order: u64);
        taylor_coeffs_at = bunlayog_taylor_coeffs_at(; root: u64, var: u64, x: i64, order: u64);
    }

    pub fn taylor_from_coefficients(&self, e: &Expansion) -> Result<Expansion, Refused> {
        let mut given = Expansion { length: 0, coeffs: [0; TERMS] };
        let number = unsafe {
            raw::bunlayog_taylor_from_coefficients(self.kinds.as_ptr(), LIMIT, self.words.as_ptr(), LIMIT, self.count,
                e.length, e.coeffs.as_ptr(), &mut given.length, given.coeffs.as_mut_ptr())
        };
        accepted(number, given)
    }

    pub fn taylor_order(&self, e: &Expansion) -> Result<u64, Refused> {
        let mut length = 0;
        let number = unsafe {
            raw::bunlayog_taylor_order(self.kinds.as_ptr(), LIMIT, self.words.as_ptr(), LIMIT, self.count, e.length, e.coeffs.as_ptr(), &mut length)
        };
        accepted(number, length)
    }
}
