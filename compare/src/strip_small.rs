//! All short strings of bytes, longer ones of a few bytes, and all short sequences of keys, run by the engine and by the machine in src/machine.rs.
use crate::call::bits;
use crate::engine::Engine;
use crate::machine;
use crate::whole;
use std::collections::BTreeMap;

/// How often a run had each outcome: 0 for accepted, or the refusal number.
struct Runs {
    engine: Engine,
    outcomes: BTreeMap<u32, u64>,
}

impl Runs {
    fn run(&mut self, strip: &[u8], values: &[f64]) {
        let theirs = machine::run(strip, values).map(bits);
        let mine = self.engine.run_strip(strip, values);
        assert_eq!(theirs, mine, "{strip:02x?} over {values:?}");
        *self.outcomes.entry(mine.err().unwrap_or(0)).or_default() += 1;
    }

    /// Every string of so many pieces, each run over both tables.
    fn strings(&mut self, strip: &mut Vec<u8>, pieces: &[Vec<u8>], length: usize, tables: &[&[f64]]) {
        tables.iter().for_each(|values| self.run(strip, values));
        if length == 0 {
            return;
        }
        for piece in pieces {
            strip.extend(piece);
            self.strings(strip, pieces, length - 1, tables);
            strip.truncate(strip.len() - piece.len());
        }
    }
}

fn of_bytes(bytes: impl IntoIterator<Item = u8>) -> Vec<Vec<u8>> {
    bytes.into_iter().map(|byte| vec![byte]).collect()
}

/// Keys of every kind, three of which break the table or the literal range, and a code that is unknown.
fn keys() -> Vec<Vec<u8>> {
    let variable = |v: u16| [&[1][..], &v.to_le_bytes()].concat();
    let literal = |z: i64| [&[2][..], &z.to_le_bytes()].concat();
    let power = |e: u32| [&[8][..], &e.to_le_bytes()].concat();
    let mut keys = vec![variable(0), variable(1), variable(2), literal(-3), literal(whole::MAX), literal(whole::MAX + 1), power(0), power(1), power(2), power(5)];
    keys.extend([3, 4, 5, 9, 6].map(|code| vec![code]));
    keys
}

pub fn all() {
    let mut runs = Runs { engine: Engine::new(), outcomes: BTreeMap::new() };
    runs.strings(&mut Vec::new(), &of_bytes(0..=255), 3, &[&[2.0]]);
    runs.strings(&mut Vec::new(), &of_bytes(0..=10), 6, &[&[2.0]]);
    runs.strings(&mut Vec::new(), &of_bytes([0, 1, 2, 3, 8]), 9, &[&[2.0]]);
    runs.strings(&mut Vec::new(), &keys(), 5, &[&[0.1, f64::NAN], &[f64::INFINITY, -0.0]]);
    let [accepted, no_value, no_strip] = [0, 15, 28].map(|number| runs.outcomes.get(&number).copied().unwrap_or(0));
    assert!(accepted > 0 && no_value > 0 && no_strip > 0 && runs.outcomes.len() == 3, "{:?}", runs.outcomes);
    println!("every string of 3 bytes, of 6 up to 0a, of 9 of five bytes and of 5 keys, with all shorter ones, run as C-20 says:");
    println!("  {accepted} accepted, {no_value} refused by 15, {no_strip} by 28");
}
