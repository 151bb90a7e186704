//! The engine's calls on expansions through its C interface. Arrays that are lent stand between guard words.
use crate::call::{Series, TERMS};
use crate::engine::{Engine, GUARD, WORD};

type Out = *mut u64;

extern "C" {
    fn bunlayog_taylor_var(k: *mut u8, kl: usize, w: *mut u64, wl: usize, n: *mut u64, x: u64, order: u64, order_out: Out, coeffs_out: Out) -> u32;
    fn bunlayog_taylor_neg(k: *mut u8, kl: usize, w: *mut u64, wl: usize, n: *mut u64, so: u64, sc: *const u64, order_out: Out, coeffs_out: Out) -> u32;
    fn bunlayog_taylor_exp(k: *mut u8, kl: usize, w: *mut u64, wl: usize, n: *mut u64, so: u64, sc: *const u64, order_out: Out, coeffs_out: Out) -> u32;
    fn bunlayog_taylor_log(k: *mut u8, kl: usize, w: *mut u64, wl: usize, n: *mut u64, so: u64, sc: *const u64, order_out: Out, coeffs_out: Out) -> u32;
    fn bunlayog_taylor_pow(k: *mut u8, kl: usize, w: *mut u64, wl: usize, n: *mut u64, so: u64, sc: *const u64, e: u32, order_out: Out, coeffs_out: Out) -> u32;
    fn bunlayog_taylor_add(k: *mut u8, kl: usize, w: *mut u64, wl: usize, n: *mut u64, so: u64, sc: *const u64, to: u64, tc: *const u64, order_out: Out, coeffs_out: Out) -> u32;
    fn bunlayog_taylor_sub(k: *mut u8, kl: usize, w: *mut u64, wl: usize, n: *mut u64, so: u64, sc: *const u64, to: u64, tc: *const u64, order_out: Out, coeffs_out: Out) -> u32;
    fn bunlayog_taylor_mul(k: *mut u8, kl: usize, w: *mut u64, wl: usize, n: *mut u64, so: u64, sc: *const u64, to: u64, tc: *const u64, order_out: Out, coeffs_out: Out) -> u32;
    fn bunlayog_taylor_div(k: *mut u8, kl: usize, w: *mut u64, wl: usize, n: *mut u64, so: u64, sc: *const u64, to: u64, tc: *const u64, order_out: Out, coeffs_out: Out) -> u32;
    fn bunlayog_taylor_max(k: *mut u8, kl: usize, w: *mut u64, wl: usize, n: *mut u64, so: u64, sc: *const u64, to: u64, tc: *const u64, order_out: Out, coeffs_out: Out) -> u32;
    fn bunlayog_taylor_subst(k: *mut u8, kl: usize, w: *mut u64, wl: usize, n: *mut u64, so: u64, sc: *const u64, to: u64, tc: *const u64, order_out: Out, coeffs_out: Out) -> u32;
    fn bunlayog_taylor_coeff(k: *mut u8, kl: usize, w: *mut u64, wl: usize, n: *mut u64, so: u64, sc: *const u64, index: u64, node: Out) -> u32;
    fn bunlayog_taylor_derivative(k: *mut u8, kl: usize, w: *mut u64, wl: usize, n: *mut u64, so: u64, sc: *const u64, index: u64, node: Out) -> u32;
    fn bunlayog_taylor_order(k: *const u8, kl: usize, w: *const u64, wl: usize, n: u64, so: u64, sc: *const u64, order_out: Out) -> u32;
    fn bunlayog_taylor_from_coefficients(k: *const u8, kl: usize, w: *const u64, wl: usize, n: u64, so: u64, sc: *const u64, order_out: Out, coeffs_out: Out) -> u32;
    fn bunlayog_taylor_coeffs(k: *mut u8, kl: usize, w: *mut u64, wl: usize, n: *mut u64, root: u64, var: u64, order: u64, order_out: Out, coeffs_out: Out) -> u32;
    fn bunlayog_taylor_coeffs_at(k: *mut u8, kl: usize, w: *mut u64, wl: usize, n: *mut u64, root: u64, var: u64, point: i64, order: u64, order_out: Out, coeffs_out: Out) -> u32;
}

/// An array of 25 numbers between guard words.
struct Lent {
    order: u64,
    words: Vec<u64>,
    then: Vec<u64>,
}

impl Lent {
    fn new(order: u64, coeffs: &[u64; TERMS]) -> Self {
        let mut words = vec![WORD; TERMS + 2 * GUARD];
        words[GUARD..GUARD + TERMS].copy_from_slice(coeffs);
        Lent { order, then: words.clone(), words }
    }

    fn given(s: &Series) -> Self {
        Lent::new(s.order, &s.coeffs)
    }

    /// The place for an answer, with a pattern in it.
    fn place() -> Self {
        Lent::new(WORD, &[WORD; TERMS])
    }

    fn pointer(&mut self) -> *mut u64 {
        unsafe { self.words.as_mut_ptr().add(GUARD) }
    }

    fn unchanged(&self, what: &str) {
        assert!(self.words == self.then, "{what}");
    }

    /// What was written to the place: all 25 numbers and the order, or nothing.
    fn answer(mut self, number: u32) -> Result<Series, u32> {
        let coeffs: [u64; TERMS] = self.words[GUARD..GUARD + TERMS].try_into().unwrap();
        if number == 0 {
            self.words[GUARD..GUARD + TERMS].fill(WORD);
        } else {
            assert_eq!(self.order, WORD, "a refused call wrote to the order");
        }
        self.unchanged("a number of the answer's array, or beside it, changed that should not");
        if number == 0 { Ok(Series { order: self.order, coeffs }) } else { Err(number) }
    }
}

/// A call that works on the pool and gives an expansion.
macro_rules! expansion {
    ($name:ident, $c:ident, ($($s:ident),*), ($($arg:ident: $t:ty),*)) => {
        pub fn $name(&mut self, $($s: &Series,)* $($arg: $t),*) -> Result<Series, u32> {
            $(let mut $s = Lent::given($s);)*
            let mut place = Lent::place();
            let coeffs_out = place.pointer();
            let before = self.count;
            let number = unsafe {
                $c(self.kinds.as_mut_ptr().add(GUARD), self.kinds_len, self.words.as_mut_ptr().add(GUARD), self.words_len, &mut self.count,
                    $($s.order, $s.pointer(),)* $($arg,)* &mut place.order, coeffs_out)
            };
            $($s.unchanged("an expansion that was given changed");)*
            self.appended(before, number);
            place.answer(number)
        }
    };
}

/// A call that gives a number of an expansion.
macro_rules! number {
    ($name:ident, $c:ident) => {
        pub fn $name(&mut self, s: &Series, index: u64) -> Result<u64, u32> {
            let mut s = Lent::given(s);
            let mut node = WORD;
            let before = self.count;
            let number = unsafe {
                $c(self.kinds.as_mut_ptr().add(GUARD), self.kinds_len, self.words.as_mut_ptr().add(GUARD), self.words_len, &mut self.count,
                    s.order, s.pointer(), index, &mut node)
            };
            s.unchanged("an expansion that was given changed");
            self.appended(before, number);
            assert!(number == 0 || node == WORD, "a refused call wrote to the node");
            if number == 0 { Ok(node) } else { Err(number) }
        }
    };
}

impl Engine {
    expansion!(taylor_var, bunlayog_taylor_var, (), (x: u64, order: u64));
    expansion!(taylor_neg, bunlayog_taylor_neg, (s), ());
    expansion!(taylor_exp, bunlayog_taylor_exp, (s), ());
    expansion!(taylor_log, bunlayog_taylor_log, (s), ());
    expansion!(taylor_pow, bunlayog_taylor_pow, (s), (e: u32));
    expansion!(taylor_add, bunlayog_taylor_add, (s, t), ());
    expansion!(taylor_sub, bunlayog_taylor_sub, (s, t), ());
    expansion!(taylor_mul, bunlayog_taylor_mul, (s, t), ());
    expansion!(taylor_div, bunlayog_taylor_div, (s, t), ());
    expansion!(taylor_max, bunlayog_taylor_max, (s, t), ());
    expansion!(taylor_subst, bunlayog_taylor_subst, (s, t), ());
    expansion!(taylor_coeffs, bunlayog_taylor_coeffs, (), (root: u64, var: u64, order: u64));
    expansion!(taylor_coeffs_at, bunlayog_taylor_coeffs_at, (), (root: u64, var: u64, point: i64, order: u64));
    number!(taylor_coeff, bunlayog_taylor_coeff);
    number!(taylor_derivative, bunlayog_taylor_derivative);

    pub fn taylor_order(&self, s: &Series) -> Result<u64, u32> {
        let mut s = Lent::given(s);
        let mut order = WORD;
        let number = unsafe {
            bunlayog_taylor_order(self.kinds.as_ptr().add(GUARD), self.kinds_len, self.words.as_ptr().add(GUARD), self.words_len, self.count,
                s.order, s.pointer(), &mut order)
        };
        s.unchanged("an expansion that was given changed");
        assert!(number == 0 || order == WORD, "a refused call wrote to the order");
        if number == 0 { Ok(order) } else { Err(number) }
    }

    pub fn taylor_from_coefficients(&self, s: &Series) -> Result<Series, u32> {
        let mut s = Lent::given(s);
        let mut place = Lent::place();
        let coeffs_out = place.pointer();
        let number = unsafe {
            bunlayog_taylor_from_coefficients(self.kinds.as_ptr().add(GUARD), self.kinds_len, self.words.as_ptr().add(GUARD), self.words_len, self.count,
                s.order, s.pointer(), &mut place.order, coeffs_out)
        };
        s.unchanged("an expansion that was given changed");
        place.answer(number)
    }
}
