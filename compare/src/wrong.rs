// Included in list.rs. Lines whose answer is wrong, which the program `replay` must report: of each operation one accepted and one refused call, once
// as the Rust answers it and then with one number of the answer changed at a time.

const WRONG_HEAD: &str = "Calls of the engine with wrong answers: see crates/replay/README.md. The first line of each call is right, the others have one number changed.\n";

/// The list of wrong lines, and the report that the program has to give.
pub struct Wrong {
    pub list: String,
    pub report: String,
    calls: u64,
    differing: u64,
}

pub fn wrong() -> Wrong {
    let mut wrong = Wrong { list: WRONG_HEAD.to_string(), report: String::new(), calls: 0, differing: 0 };
    let directed::All { pool, calls, .. } = directed::all();
    counted::forget_from(0);
    wrong.list += "0 clear\n";
    pool.entries.iter().enumerate().for_each(|(i, (kind, word))| {
        oracle::raw(*kind, *word);
        writeln!(wrong.list, "1 put {i} kind {kind} word {word}").unwrap();
    });
    writeln!(wrong.list, "2 count {}", pool.entries.len()).unwrap();
    for name in report::names() {
        let of_name = |accepted: bool| calls.iter().find(move |(number, call)| call.name() == name && (*number == 0) == accepted);
        for accepted in [true, false] {
            let (_, call) = of_name(accepted).unwrap_or_else(|| panic!("{name} is not both accepted and refused"));
            wrong.call(call);
        }
    }
    wrong.check(0, 1);
    writeln!(wrong.list, "2 count {}", LIMIT + 1).unwrap();
    wrong.check(1, 0);
    writeln!(wrong.report, "{} calls replayed, {} differ", wrong.calls, wrong.differing).unwrap();
    wrong.list = in_blocks(&wrong.list);
    wrong
}

impl Wrong {
    /// A line, and its report where it is wrong.
    fn line(&mut self, operation: u32, line: &str, right: bool) {
        self.list += line;
        self.calls += 1;
        if !right {
            self.differing += 1;
            writeln!(self.report, "call {}, operation {operation}: differs", self.calls).unwrap();
        }
    }

    fn check(&mut self, right: u32, wrong: u32) {
        self.line(27, &format!("27 check gives {right}\n"), true);
        self.line(27, &format!("27 check gives {wrong}\n"), false);
    }

    /// The call as it is and changed, the pool as before after each line.
    fn call(&mut self, call: &Call) {
        let before = counted::count();
        let right = outcome(call);
        counted::forget_from(before);
        for outcome in std::iter::once(right.clone()).chain(changed(&right)) {
            self.line(operation(call), &line(call, &outcome), outcome == right);
            let end = before + right.new.len() + 1;
            writeln!(self.list, "3 fill from {before} to {end} kind 0 word 0\n2 count {before}").unwrap();
        }
    }
}

/// The outcome with one number changed, in each way in which an answer has one.
fn changed(right: &Outcome) -> Vec<Outcome> {
    let with_answer = |answer: Answer| Outcome { answer, new: right.new.clone() };
    let mut wrong: Vec<Outcome> = match &right.answer {
        Err(number) => vec![with_answer(Err(number % 19 + 1)), with_answer(Err(number + 256)), with_answer(Err(number + (1 << 31)))],
        Ok(given) => {
            let refused = Outcome { answer: Err(18), new: vec![] };
            changed_given(given).into_iter().map(|given| with_answer(Ok(given))).chain([refused]).collect()
        }
    };
    wrong.extend(changed_entries(&right.new).into_iter().map(|new| Outcome { answer: right.answer.clone(), new }));
    wrong
}

fn changed_given(given: &Given) -> Vec<Given> {
    match given {
        Given::Number(n) => vec![Given::Number(n + 1), Given::Number(n ^ (1 << 40))],
        Given::Bytes(bytes) => changed_bytes(bytes).into_iter().map(Given::Bytes).collect(),
        Given::Expansion(s) => changed_series(s).into_iter().map(Given::Expansion).collect(),
    }
}

/// The first byte, the last, one fewer, and one more, which is the byte that the output has had before.
fn changed_bytes(bytes: &[u8]) -> Vec<Vec<u8>> {
    let last = bytes.len() - 1;
    let mut changed = vec![bytes.to_vec(), bytes.to_vec(), bytes[..last].to_vec(), bytes.to_vec()];
    changed[0][0] ^= 1;
    changed[1][last] ^= 1;
    changed[3].push(165);
    changed
}

/// The order, each entry, and the one behind the last.
fn changed_series(s: &Series) -> Vec<Series> {
    let mut changed = vec![Series { order: s.order ^ 1, ..*s }];
    for i in 0..=s.nodes().len() {
        let mut coeffs = s.coeffs;
        coeffs[i] += 1;
        changed.push(Series { order: s.order, coeffs });
    }
    changed
}

/// The kind and the word of each entry, one entry fewer, one more. Where nothing was appended, one more is the only change.
fn changed_entries(new: &[Entry]) -> Vec<Vec<Entry>> {
    let mut changed = Vec::new();
    for (i, (kind, word)) in new.iter().enumerate() {
        for entry in [(kind % 9 + 1, *word), (*kind, word.wrapping_add(1))] {
            let mut entries = new.to_vec();
            entries[i] = entry;
            changed.push(entries);
        }
    }
    if !new.is_empty() {
        changed.push(new[..new.len() - 1].to_vec());
        changed.push([new, &[(1, 0)]].concat());
    }
    changed
}
