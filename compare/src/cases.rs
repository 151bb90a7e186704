// Included in list.rs. The cases worked out from document 01 (crates/replay/cases), which come last in the list: each call is asked of the Rust too, and the
// answer that the case has must be the Rust's.

const CASES: &str = include_str!("../../crates/replay/cases");

/// The numbers of a line, one after another.
struct Numbers(std::vec::IntoIter<u64>);

impl Numbers {
    fn of(line: &str) -> Self {
        let runs = line.split(|c: char| !c.is_ascii_digit()).filter(|run| !run.is_empty());
        Numbers(runs.map(|run| run.parse().unwrap()).collect::<Vec<u64>>().into_iter())
    }

    fn next(&mut self) -> u64 {
        self.0.next().expect("a number more")
    }

    fn some(&mut self) -> Vec<u64> {
        (0..self.next()).map(|_| self.next()).collect()
    }

    fn bytes(&mut self) -> Vec<u8> {
        self.some().into_iter().map(|byte| byte as u8).collect()
    }

    fn entry(&mut self) -> Entry {
        (self.next() as u8, self.next())
    }

    fn series(&mut self) -> Series {
        let (order, mut coeffs) = (self.next(), self.some());
        coeffs.resize(TERMS, 0);
        Series { order, coeffs: coeffs.try_into().unwrap() }
    }

    /// Values that are all alike.
    fn alike(&mut self) -> Vec<u64> {
        let length = self.next() as usize;
        vec![self.next(); length]
    }

    fn call(&mut self, operation: u64) -> Call {
        use Call::*;
        let doubles = |values: Vec<u64>| values.into_iter().map(f64::from_bits).collect();
        let residues = |values: Vec<u64>| values.into_iter().map(|x| x as u32).collect();
        match operation {
            10 => Lit(self.next() as i64),
            11 => Var(self.next()),
            12 => Add(self.next(), self.next()),
            13 => Mul(self.next(), self.next()),
            14 => Div(self.next(), self.next()),
            15 => Max(self.next(), self.next()),
            16 => Neg(self.next()),
            17 => Exp(self.next()),
            18 => Log(self.next()),
            19 => Pow(self.next(), self.next() as u32),
            20 => SubstituteVar { root: self.next(), var: self.next(), value: self.next() },
            21 => Derive { root: self.next(), var: self.next() },
            22 => Evaluate(self.next(), doubles(self.some())),
            23 => EvaluateResidue(self.next(), residues(self.some())),
            24 | 47 => Print { room: self.next() as usize, root: self.next() },
            25 => Write { room: self.next() as usize, root: self.next() },
            26 => Read(self.bytes()),
            28 => Evaluate(self.next(), doubles(self.alike())),
            29 => EvaluateResidue(self.next(), residues(self.alike())),
            30 => TaylorVar { x: self.next(), order: self.next() },
            31 => TaylorFromCoefficients(self.series()),
            32 => TaylorCoeff(self.series(), self.next()),
            33 => TaylorDerivative(self.series(), self.next()),
            34 => TaylorOrder(self.series()),
            35 => TaylorExp(self.series()),
            36 => TaylorLog(self.series()),
            37 => TaylorNeg(self.series()),
            38 => TaylorPow(self.series(), self.next() as u32),
            39 => TaylorAdd(self.series(), self.series()),
            40 => TaylorSub(self.series(), self.series()),
            41 => TaylorMul(self.series(), self.series()),
            42 => TaylorDiv(self.series(), self.series()),
            43 => TaylorMax(self.series(), self.series()),
            44 => TaylorSubst(self.series(), self.series()),
            45 => TaylorCoeffs { root: self.next(), var: self.next(), order: self.next() },
            46 => TaylorCoeffsAt { root: self.next(), var: self.next(), point: self.next() as i64, order: self.next() },
            49 => Strip { room: self.next() as usize, root: self.next() },
            50 => RunStrip { strip: self.bytes(), values: doubles(self.some()) },
            51 => RunStrip { strip: self.bytes(), values: doubles(self.alike()) },
            _ => panic!("operation {operation} is no case's"),
        }
    }
}

/// The tables as the lines leave them, and the entries that the next call appends.
struct Cases {
    kinds: Vec<u8>,
    words: Vec<u64>,
    count: u64,
    appended: Vec<Entry>,
    calls: u64,
}

/// How many calls the cases have: each is answered as the Rust answers it.
fn cases_checked() -> u64 {
    let mut cases = Cases { kinds: vec![0; LIMIT], words: vec![0; LIMIT], count: 0, appended: Vec::new(), calls: 0 };
    CASES.lines().for_each(|line| cases.line(line));
    counted::forget_from(0);
    cases.calls
}

impl Cases {
    fn put(&mut self, i: u64, (kind, word): Entry) {
        (self.kinds[i as usize], self.words[i as usize]) = (kind, word);
    }

    fn first(&mut self, n: u64) {
        (n..LIMIT as u64).for_each(|i| self.put(i, (0, 0)));
        self.count = n;
    }

    fn line(&mut self, line: &str) {
        let mut numbers = Numbers::of(line);
        match numbers.next() {
            0 => self.first(0),
            1 => {
                let i = numbers.next();
                self.put(i, numbers.entry());
            }
            2 => self.count = numbers.next(),
            operation @ (3 | 4) => {
                let (from, to, (kind, word)) = (numbers.next(), numbers.next(), numbers.entry());
                let step = if operation == 4 { numbers.next() } else { 0 };
                (from..to).for_each(|i| self.put(i, (kind, word.wrapping_add((i - from).wrapping_mul(step)))));
            }
            5 => self.first(numbers.next()),
            6 => (0..numbers.next()).for_each(|_| self.appended.push(numbers.entry())),
            7 => {
                let (to, (kind, word), step) = (numbers.next(), numbers.entry(), numbers.next());
                let new = to - self.count - self.appended.len() as u64;
                self.appended.extend((0..new).map(|i| (kind, word.wrapping_add(i.wrapping_mul(step)))));
            }
            8 => {}
            operation => self.call(operation, numbers, line),
        }
    }

    fn call(&mut self, mut operation: u64, mut numbers: Numbers, line: &str) {
        self.calls += 1;
        let mut lengths = [LIMIT as u64; 2];
        if operation == 48 {
            lengths = [numbers.next(), numbers.next()];
            operation = numbers.next();
        }
        let call = numbers.call(operation);
        let given: Vec<u64> = numbers.0.collect();
        if lengths != [LIMIT as u64; 2] || !file::is_pool(&self.kinds, &self.words, self.count) {
            // a strip is run without a pool
            let theirs = if matches!(call, Call::RunStrip { .. }) { Numbers::of(&answered(&call, &outcome(&call))).0.collect() } else { vec![1] };
            assert_eq!(given, theirs, "{line}");
            return;
        }
        counted::forget_from(0);
        (0..self.count as usize).for_each(|i| {
            oracle::raw(self.kinds[i], self.words[i]);
        });
        let mut outcome = outcome(&call);
        let new = outcome.new.clone();
        if !self.appended.is_empty() {
            assert_eq!(std::mem::take(&mut outcome.new), std::mem::take(&mut self.appended), "{line}");
        }
        let theirs = if operation == 47 { repeated(&outcome, &given) } else { Numbers::of(&answered(&call, &outcome)).0.collect() };
        assert_eq!(given, theirs, "{line}");
        (0..).zip(new).for_each(|(i, entry)| self.put(self.count + i, entry));
        self.count = counted::count() as u64;
    }
}

/// A long text: its length, a piece that comes again and again, and the last byte.
fn repeated(outcome: &Outcome, given: &[u64]) -> Vec<u64> {
    let Ok(Given::Bytes(bytes)) = &outcome.answer else { panic!("no text") };
    let (period, last) = (given[2] as usize, bytes.len() - 1);
    assert!((period..last).all(|i| bytes[i] == bytes[i - period]), "the piece comes again");
    let piece = bytes[..period].iter().map(|byte| *byte as u64);
    [0, bytes.len() as u64, period as u64].into_iter().chain(piece).chain([bytes[last] as u64]).collect()
}
