//! The engine through its C interface, its tables between guard bytes.
use crate::counted::LIMIT;

extern "C" {
    fn bunlayog_lit(k: *mut u8, kl: usize, w: *mut u64, wl: usize, n: *mut u64, value: i64, node: *mut u64) -> u32;
    fn bunlayog_var(k: *mut u8, kl: usize, w: *mut u64, wl: usize, n: *mut u64, number: u64, node: *mut u64) -> u32;
    fn bunlayog_add(k: *mut u8, kl: usize, w: *mut u64, wl: usize, n: *mut u64, a: u64, b: u64, node: *mut u64) -> u32;
    fn bunlayog_mul(k: *mut u8, kl: usize, w: *mut u64, wl: usize, n: *mut u64, a: u64, b: u64, node: *mut u64) -> u32;
    fn bunlayog_div(k: *mut u8, kl: usize, w: *mut u64, wl: usize, n: *mut u64, a: u64, b: u64, node: *mut u64) -> u32;
    fn bunlayog_max(k: *mut u8, kl: usize, w: *mut u64, wl: usize, n: *mut u64, a: u64, b: u64, node: *mut u64) -> u32;
    fn bunlayog_neg(k: *mut u8, kl: usize, w: *mut u64, wl: usize, n: *mut u64, a: u64, node: *mut u64) -> u32;
    fn bunlayog_exp(k: *mut u8, kl: usize, w: *mut u64, wl: usize, n: *mut u64, a: u64, node: *mut u64) -> u32;
    fn bunlayog_log(k: *mut u8, kl: usize, w: *mut u64, wl: usize, n: *mut u64, a: u64, node: *mut u64) -> u32;
    fn bunlayog_pow(k: *mut u8, kl: usize, w: *mut u64, wl: usize, n: *mut u64, a: u64, e: u32, node: *mut u64) -> u32;
    fn bunlayog_substitute_var(k: *mut u8, kl: usize, w: *mut u64, wl: usize, n: *mut u64, root: u64, var: u64, value: u64, node: *mut u64) -> u32;
    fn bunlayog_derive(k: *mut u8, kl: usize, w: *mut u64, wl: usize, n: *mut u64, root: u64, var: u64, node: *mut u64) -> u32;
    fn bunlayog_read(k: *mut u8, kl: usize, w: *mut u64, wl: usize, n: *mut u64, file: *const u8, fl: usize, root: *mut u64) -> u32;
    fn bunlayog_check(k: *const u8, kl: usize, w: *const u64, wl: usize, n: u64) -> u32;
    fn bunlayog_evaluate(k: *const u8, kl: usize, w: *const u64, wl: usize, n: u64, root: u64, v: *const f64, vl: usize, bits: *mut u64) -> u32;
    fn bunlayog_evaluate_residue(k: *const u8, kl: usize, w: *const u64, wl: usize, n: u64, root: u64, v: *const u32, vl: usize, residue: *mut u32) -> u32;
    fn bunlayog_print(k: *const u8, kl: usize, w: *const u64, wl: usize, n: u64, root: u64, out: *mut u8, ol: usize, written: *mut u64) -> u32;
    fn bunlayog_strip(k: *const u8, kl: usize, w: *const u64, wl: usize, n: u64, root: u64, out: *mut u8, ol: usize, written: *mut u64) -> u32;
    fn bunlayog_run_strip(s: *const u8, sl: usize, v: *const f64, vl: usize, bits: *mut u64) -> u32;
    fn bunlayog_write(k: *const u8, kl: usize, w: *const u64, wl: usize, n: u64, root: u64, out: *mut u8, ol: usize, written: *mut u64) -> u32;
}

pub const GUARD: usize = 64;
const BYTE: u8 = 0xa5;
pub const WORD: u64 = 0xa5a5_a5a5_a5a5_a5a5;

#[derive(Clone)]
pub struct Engine {
    pub(crate) kinds: Vec<u8>,
    pub(crate) words: Vec<u64>,
    pub(crate) count: u64,
    /// The lengths that the tables are lent with.
    pub(crate) kinds_len: usize,
    pub(crate) words_len: usize,
    /// The tables as they are to be: what an accepted call appended is copied here.
    kinds_then: Vec<u8>,
    words_then: Vec<u64>,
}

/// A call that works on the pool.
macro_rules! call {
    ($name:ident, $c:ident, $($arg:ident: $t:ty),* $(; $slice:ident)?) => {
        pub fn $name(&mut self, $($arg: $t,)* $($slice: &[u8])?) -> Result<u64, u32> {
            let mut node = WORD;
            let before = self.count;
            let number = unsafe {
                $c(self.kinds.as_mut_ptr().add(GUARD), self.kinds_len, self.words.as_mut_ptr().add(GUARD), self.words_len, &mut self.count,
                    $($arg,)* $($slice.as_ptr(), $slice.len(),)? &mut node)
            };
            self.appended(before, number);
            assert!(number == 0 || node == WORD, "a refused call wrote to the node");
            if number == 0 { Ok(node) } else { Err(number) }
        }
    };
}

/// A call that gives a number and changes nothing else.
macro_rules! value {
    ($name:ident, $c:ident, $t:ty, $given:ty) => {
        pub fn $name(&self, root: u64, values: &[$t]) -> Result<u64, u32> {
            let mut given = WORD as $given;
            let number = unsafe {
                $c(self.kinds.as_ptr().add(GUARD), self.kinds_len, self.words.as_ptr().add(GUARD), self.words_len, self.count,
                    root, values.as_ptr(), values.len(), &mut given)
            };
            if number == 0 {
                Ok(given as u64)
            } else {
                assert_eq!(given, WORD as $given, "a refused call wrote to the place of its answer");
                Err(number)
            }
        }
    };
}

/// A call that writes to an output, which stands between guard bytes.
macro_rules! output {
    ($name:ident, $c:ident) => {
        pub fn $name(&self, root: u64, room: usize) -> Result<Vec<u8>, u32> {
            let mut out = vec![BYTE; room + 2 * GUARD];
            let mut written = WORD;
            let number = unsafe {
                $c(self.kinds.as_ptr().add(GUARD), self.kinds_len, self.words.as_ptr().add(GUARD), self.words_len, self.count,
                    root, out.as_mut_ptr().add(GUARD), room, &mut written)
            };
            let length = if number == 0 { written as usize } else { 0 };
            assert!(number == 0 || written == WORD, "a refused call wrote to the place of its answer");
            let around = out[..GUARD].iter().chain(&out[GUARD + length..]);
            assert!(around.into_iter().all(|b| *b == BYTE), "a byte of the output changed that should not");
            if number == 0 { Ok(out[GUARD..GUARD + length].to_vec()) } else { Err(number) }
        }
    };
}

impl Engine {
    pub fn new() -> Self {
        let mut kinds = vec![BYTE; LIMIT + 2 * GUARD];
        let mut words = vec![WORD; LIMIT + 2 * GUARD];
        kinds[GUARD..GUARD + LIMIT].fill(0);
        words[GUARD..GUARD + LIMIT].fill(0);
        Engine { kinds_then: kinds.clone(), words_then: words.clone(), kinds, words, count: 0, kinds_len: LIMIT, words_len: LIMIT }
    }

    call!(lit, bunlayog_lit, value: i64);
    call!(var, bunlayog_var, number: u64);
    call!(add, bunlayog_add, a: u64, b: u64);
    call!(mul, bunlayog_mul, a: u64, b: u64);
    call!(div, bunlayog_div, a: u64, b: u64);
    call!(max, bunlayog_max, a: u64, b: u64);
    call!(neg, bunlayog_neg, a: u64);
    call!(exp, bunlayog_exp, a: u64);
    call!(log, bunlayog_log, a: u64);
    call!(pow, bunlayog_pow, a: u64, e: u32);
    call!(substitute_var, bunlayog_substitute_var, root: u64, var: u64, value: u64);
    call!(derive, bunlayog_derive, root: u64, var: u64);
    call!(read, bunlayog_read, ; file);
    value!(evaluate, bunlayog_evaluate, f64, u64);
    value!(evaluate_residue, bunlayog_evaluate_residue, u32, u32);
    output!(print, bunlayog_print);
    output!(write, bunlayog_write);
    output!(strip, bunlayog_strip);

    /// The machine needs no pool. Its answer's place stands between guard words.
    pub fn run_strip(&self, strip: &[u8], values: &[f64]) -> Result<u64, u32> {
        let mut place = [WORD; 3];
        let number = unsafe { bunlayog_run_strip(strip.as_ptr(), strip.len(), values.as_ptr(), values.len(), place.as_mut_ptr().add(1)) };
        let [before, bits, after] = place;
        assert!(before == WORD && after == WORD, "a word beside the place of the answer changed");
        assert!(number == 0 || bits == WORD, "a refused call wrote to the place of its answer");
        if number == 0 { Ok(bits) } else { Err(number) }
    }

    /// After a call that works on the pool: what it appended is to be there from now on, and a refused call leaves the count.
    pub(crate) fn appended(&mut self, before: u64, number: u32) {
        if number != 0 {
            assert_eq!(self.count, before, "a refused call wrote to the count");
            return;
        }
        for i in before as usize..self.count as usize {
            self.kinds_then[GUARD + i] = self.kinds[GUARD + i];
            self.words_then[GUARD + i] = self.words[GUARD + i];
        }
    }

    pub fn check(&self) -> u32 {
        unsafe { bunlayog_check(self.kinds.as_ptr().add(GUARD), self.kinds_len, self.words.as_ptr().add(GUARD), self.words_len, self.count) }
    }

    /// Both tables as they are lent.
    pub fn tables(&self) -> (&[u8], &[u64]) {
        (&self.kinds[GUARD..GUARD + self.kinds_len], &self.words[GUARD..GUARD + self.words_len])
    }

    /// Lends shorter tables.
    pub fn lend(&mut self, kinds_len: usize, words_len: usize) {
        (self.kinds_len, self.words_len) = (kinds_len, words_len);
    }

    /// Overwrites an entry, and the count, with anything.
    pub fn damage(&mut self, i: usize, kind: u8, word: u64, count: u64) {
        (self.kinds[GUARD + i], self.words[GUARD + i]) = (kind, word);
        (self.kinds_then[GUARD + i], self.words_then[GUARD + i]) = (kind, word);
        self.count = count;
    }

    pub fn count(&self) -> u64 {
        self.count
    }

    pub fn entry(&self, i: usize) -> (u8, u64) {
        (self.kinds[GUARD + i], self.words[GUARD + i])
    }

    /// A node that no constructor makes.
    pub fn push_raw(&mut self, kind: u8, word: u64) {
        let at = GUARD + self.count as usize;
        self.kinds[at] = kind;
        self.words[at] = word;
        self.kinds_then[at] = kind;
        self.words_then[at] = word;
        self.count += 1;
    }

    /// Forgets the nodes from a number on.
    pub fn forget_from(&mut self, count: usize) {
        let gone = GUARD + count..GUARD + self.count as usize;
        self.kinds[gone.clone()].fill(0);
        self.words[gone.clone()].fill(0);
        self.kinds_then[gone.clone()].fill(0);
        self.words_then[gone].fill(0);
        self.count = count as u64;
    }

    /// Nothing but appended entries may differ from before, inside the tables and around them.
    pub fn check_guards(&self, what: &str) {
        assert!(self.kinds == self.kinds_then && self.words == self.words_then, "{what}: a byte changed that should not");
    }
}
