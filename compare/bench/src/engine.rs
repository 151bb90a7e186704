//! The engine through its C interface.
pub const LIMIT: usize = 4096;
pub const TEXT_MAX: usize = 65_535;
pub const FILE_MAX: usize = 36_868;
pub const STRIP_MAX: usize = 65_535;
pub const PLACES: usize = 128;
/// The entries of an expansion's list.
pub const LIST: usize = 25;

/// The functions, each with the pool's five arguments first.
macro_rules! functions {
    ($($name:ident($($arg:ident: $t:ty),*);)*) => {
        extern "C" {
            $(pub fn $name(k: *mut u8, kl: usize, w: *mut u64, wl: usize, n: *mut u64, $($arg: $t),*) -> u32;)*
        }
    };
}
/// The same where the pool is only read.
macro_rules! readers {
    ($($name:ident($($arg:ident: $t:ty),*);)*) => {
        extern "C" {
            $(pub fn $name(k: *const u8, kl: usize, w: *const u64, wl: usize, n: u64, $($arg: $t),*) -> u32;)*
        }
    };
}
functions! {
    bunlayog_lit(value: i64, node: *mut u64);
    bunlayog_var(number: u64, node: *mut u64);
    bunlayog_add(a: u64, b: u64, node: *mut u64);
    bunlayog_mul(a: u64, b: u64, node: *mut u64);
    bunlayog_div(a: u64, b: u64, node: *mut u64);
    bunlayog_max(a: u64, b: u64, node: *mut u64);
    bunlayog_neg(a: u64, node: *mut u64);
    bunlayog_exp(a: u64, node: *mut u64);
    bunlayog_log(a: u64, node: *mut u64);
    bunlayog_pow(a: u64, e: u32, node: *mut u64);
    bunlayog_substitute_var(root: u64, var: u64, value: u64, node: *mut u64);
    bunlayog_derive(root: u64, var: u64, node: *mut u64);
    bunlayog_read(file: *const u8, fl: usize, root: *mut u64);
    bunlayog_taylor_var(x: u64, order: u64, order_out: *mut u64, out: *mut u64);
    bunlayog_taylor_coeff(order: u64, c: *const u64, index: u64, node: *mut u64);
    bunlayog_taylor_derivative(order: u64, c: *const u64, index: u64, node: *mut u64);
    bunlayog_taylor_exp(order: u64, c: *const u64, order_out: *mut u64, out: *mut u64);
    bunlayog_taylor_log(order: u64, c: *const u64, order_out: *mut u64, out: *mut u64);
    bunlayog_taylor_neg(order: u64, c: *const u64, order_out: *mut u64, out: *mut u64);
    bunlayog_taylor_pow(order: u64, c: *const u64, e: u32, order_out: *mut u64, out: *mut u64);
    bunlayog_taylor_add(o: u64, c: *const u64, p: u64, d: *const u64, order_out: *mut u64, out: *mut u64);
    bunlayog_taylor_sub(o: u64, c: *const u64, p: u64, d: *const u64, order_out: *mut u64, out: *mut u64);
    bunlayog_taylor_mul(o: u64, c: *const u64, p: u64, d: *const u64, order_out: *mut u64, out: *mut u64);
    bunlayog_taylor_div(o: u64, c: *const u64, p: u64, d: *const u64, order_out: *mut u64, out: *mut u64);
    bunlayog_taylor_max(o: u64, c: *const u64, p: u64, d: *const u64, order_out: *mut u64, out: *mut u64);
    bunlayog_taylor_subst(o: u64, c: *const u64, p: u64, d: *const u64, order_out: *mut u64, out: *mut u64);
    bunlayog_taylor_coeffs(root: u64, var: u64, order: u64, order_out: *mut u64, out: *mut u64);
    bunlayog_taylor_coeffs_at(root: u64, var: u64, point: i64, order: u64, order_out: *mut u64, out: *mut u64);
}
readers! {
    bunlayog_check();
    bunlayog_evaluate(root: u64, v: *const f64, vl: usize, bits: *mut u64);
    bunlayog_evaluate_residue(root: u64, v: *const u32, vl: usize, residue: *mut u32);
    bunlayog_print(root: u64, out: *mut u8, ol: usize, written: *mut u64);
    bunlayog_write(root: u64, out: *mut u8, ol: usize, written: *mut u64);
    bunlayog_strip(root: u64, out: *mut u8, ol: usize, written: *mut u64);
    bunlayog_taylor_from_coefficients(order: u64, c: *const u64, order_out: *mut u64, out: *mut u64);
    bunlayog_taylor_order(order: u64, c: *const u64, order_out: *mut u64);
    plain_check();
    plain_strip(root: u64, out: *mut u8, ol: usize, written: *mut u64);
}

mod machines {
    extern "C" {
        pub fn bunlayog_run_strip(s: *const u8, sl: usize, v: *const f64, vl: usize, bits: *mut u64) -> u32;
        pub fn plain_run_strip(s: *const u8, sl: usize, v: *const f64, vl: usize, bits: *mut u64) -> u32;
    }
}
pub use machines::bunlayog_run_strip;

/// A machine that must accept: the bits it gives.
macro_rules! run {
    ($name:ident, $f:ident) => {
        pub fn $name(strip: &[u8], values: &[f64]) -> u64 {
            let mut bits = 0;
            assert_eq!(unsafe { machines::$f(strip.as_ptr(), strip.len(), values.as_ptr(), values.len(), &mut bits) }, 0, stringify!($f));
            bits
        }
    };
}
run!(run_strip, bunlayog_run_strip);
run!(plain_run_strip, plain_run_strip);

/// The order of a constant, which stands first in its list.
pub const CONSTANT: u64 = u64::MAX;

/// An expansion as it is lent: the number of entries, or `CONSTANT`.
#[derive(Clone, Copy)]
pub struct Expansion {
    pub order: u64,
    pub coeffs: [u64; LIST],
}

#[derive(Clone)]
pub struct Pool {
    pub kinds: Vec<u8>,
    pub words: Vec<u64>,
    pub count: u64,
}

/// A function that works on the pool and must accept: the node it gives.
macro_rules! made {
    ($self:ident, $f:ident, $($arg:expr),*) => {{
        let mut node = 0;
        let number = unsafe { $f($self.kinds.as_mut_ptr(), LIMIT, $self.words.as_mut_ptr(), LIMIT, &mut $self.count, $($arg,)* &mut node) };
        assert_eq!(number, 0, stringify!($f));
        node
    }};
}
/// A function that reads the pool and must accept: the answer it gives.
macro_rules! given {
    ($self:ident, $f:ident, $($arg:expr),*) => {{
        let mut answer = 0;
        let number = unsafe { $f($self.kinds.as_ptr(), LIMIT, $self.words.as_ptr(), LIMIT, $self.count, $($arg,)* &mut answer) };
        assert_eq!(number, 0, stringify!($f));
        answer
    }};
}

impl Pool {
    pub fn new() -> Self {
        Pool { kinds: vec![0; LIMIT], words: vec![0; LIMIT], count: 0 }
    }

    /// Forgets the nodes from a number on: their entries are 0 again.
    pub fn back_to(&mut self, count: u64) {
        let (from, to) = (count as usize, self.count as usize);
        self.kinds[from..to].fill(0);
        self.words[from..to].fill(0);
        self.count = count;
    }

    /// A node as it is, by no constructor.
    pub fn push(&mut self, kind: u8, word: u64) -> u64 {
        let at = self.count as usize;
        (self.kinds[at], self.words[at]) = (kind, word);
        self.count += 1;
        at as u64
    }

    pub fn check(&self) -> u32 {
        unsafe { bunlayog_check(self.kinds.as_ptr(), LIMIT, self.words.as_ptr(), LIMIT, self.count) }
    }
    /// check.c on the same tables.
    pub fn plain_check(&self) -> u32 {
        unsafe { plain_check(self.kinds.as_ptr(), LIMIT, self.words.as_ptr(), LIMIT, self.count) }
    }
    pub fn lit(&mut self, value: i64) -> u64 {
        made!(self, bunlayog_lit, value)
    }
    pub fn var(&mut self, number: u64) -> u64 {
        made!(self, bunlayog_var, number)
    }
    pub fn add(&mut self, a: u64, b: u64) -> u64 {
        made!(self, bunlayog_add, a, b)
    }
    pub fn mul(&mut self, a: u64, b: u64) -> u64 {
        made!(self, bunlayog_mul, a, b)
    }
    pub fn div(&mut self, a: u64, b: u64) -> u64 {
        made!(self, bunlayog_div, a, b)
    }
    pub fn exp(&mut self, a: u64) -> u64 {
        made!(self, bunlayog_exp, a)
    }
    pub fn log(&mut self, a: u64) -> u64 {
        made!(self, bunlayog_log, a)
    }
    pub fn pow(&mut self, a: u64, e: u32) -> u64 {
        made!(self, bunlayog_pow, a, e)
    }
    pub fn derive(&mut self, root: u64, var: u64) -> u64 {
        made!(self, bunlayog_derive, root, var)
    }
    pub fn substitute_var(&mut self, root: u64, var: u64, value: u64) -> u64 {
        made!(self, bunlayog_substitute_var, root, var, value)
    }
    pub fn read(&mut self, file: &[u8]) -> u64 {
        made!(self, bunlayog_read, file.as_ptr(), file.len())
    }
    pub fn evaluate(&self, root: u64, values: &[f64]) -> u64 {
        given!(self, bunlayog_evaluate, root, values.as_ptr(), values.len())
    }
    pub fn print(&self, root: u64, out: &mut [u8]) -> usize {
        given!(self, bunlayog_print, root, out.as_mut_ptr(), out.len()) as usize
    }
    pub fn write(&self, root: u64, out: &mut [u8]) -> usize {
        given!(self, bunlayog_write, root, out.as_mut_ptr(), out.len()) as usize
    }
    pub fn strip(&self, root: u64, out: &mut [u8]) -> usize {
        given!(self, bunlayog_strip, root, out.as_mut_ptr(), out.len()) as usize
    }
    /// strips.c on the same tables.
    pub fn plain_strip(&self, root: u64, out: &mut [u8]) -> usize {
        given!(self, plain_strip, root, out.as_mut_ptr(), out.len()) as usize
    }
    pub fn derivative(&mut self, e: &Expansion, index: u64) -> u64 {
        made!(self, bunlayog_taylor_derivative, e.order, e.coeffs.as_ptr(), index)
    }
    /// The expansion of an expression by variable 0, at a point where one is given.
    pub fn expand(&mut self, root: u64, point: Option<i64>, order: u64) -> Expansion {
        let mut given = Expansion { order: 0, coeffs: [0; LIST] };
        let (k, w, n) = (self.kinds.as_mut_ptr(), self.words.as_mut_ptr(), &mut self.count);
        let number = match point {
            Some(point) => unsafe { bunlayog_taylor_coeffs_at(k, LIMIT, w, LIMIT, n, root, 0, point, order, &mut given.order, given.coeffs.as_mut_ptr()) },
            None => unsafe { bunlayog_taylor_coeffs(k, LIMIT, w, LIMIT, n, root, 0, order, &mut given.order, given.coeffs.as_mut_ptr()) },
        };
        assert_eq!(number, 0, "expand to order {order}");
        given
    }
}
