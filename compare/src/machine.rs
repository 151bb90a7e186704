//! C-20's machine in plain Rust, from the request's words: a strip is taken apart into keys, looked at as a whole, and then run over document 01's doubles.
use crate::number::Number;
use crate::values::Double;
use crate::whole;

/// "a small machine with 128 places"
pub const PLACES: usize = 128;

/// "Code 1 pushes a variable .., 2 a literal .., 3, 4, 5 and 9 combine the two topmost values .., and 8 raises the topmost".
#[derive(Clone, Copy)]
enum Key {
    Variable(u16),
    Literal(i64),
    Combine(u8),
    Raise(u32),
}
use Key::*;

/// Takes the next bytes off; None where they are "cut off".
fn follows<const N: usize>(strip: &mut &[u8]) -> Option<[u8; N]> {
    let (bytes, rest) = strip.split_first_chunk::<N>()?;
    *strip = rest;
    Some(*bytes)
}

/// The next key; None where its code "is unknown, what follows a code is cut off or breaks document 01's table or literal range".
fn key(strip: &mut &[u8]) -> Option<Key> {
    let [code] = follows(strip)?;
    match code {
        1 => follows(strip).map(|bytes| Variable(u16::from_le_bytes(bytes))),
        2 => follows(strip).map(i64::from_le_bytes).filter(|z| z.unsigned_abs() <= whole::MAX as u64).map(Literal),
        3 | 4 | 5 | 9 => Some(Combine(code)),
        8 => follows(strip).map(u32::from_le_bytes).filter(|e| *e >= 2).map(Raise),
        _ => None,
    }
}

fn keys(mut strip: &[u8]) -> Option<Vec<Key>> {
    let mut keys = Vec::new();
    while !strip.is_empty() {
        keys.push(key(&mut strip)?);
    }
    Some(keys)
}

/// The most places in use at a time; None where "values are missing .. or not exactly one value is left".
fn places(keys: &[Key]) -> Option<usize> {
    let (mut used, mut most) = (0usize, 0);
    for key in keys {
        used = match key {
            Variable(_) | Literal(_) => used + 1,
            Combine(_) if used >= 2 => used - 1,
            Raise(_) if used >= 1 => used,
            _ => return None,
        };
        most = most.max(used);
    }
    if used == 1 { Some(most) } else { None }
}

/// The places that a strip needs, were there any number of them.
pub fn needed(strip: &[u8]) -> Option<usize> {
    places(&keys(strip)?)
}

/// "the lower one being the left"
fn combined(code: u8, left: Double, right: Double) -> Double {
    match code {
        3 => left + right,
        4 => left * right,
        5 => left / right,
        _ => left.max(&right),
    }
}

/// 28 "when a code is unknown, .. more than 128 places are needed, or not exactly one value is left", then 15. 6 is looked at before.
pub fn run(strip: &[u8], values: &[f64]) -> Result<f64, u32> {
    let keys = keys(strip).filter(|keys| places(keys).is_some_and(|most| most <= PLACES)).ok_or(28u32)?;
    let mut stack: Vec<Double> = Vec::with_capacity(PLACES);
    for key in keys {
        let pushed = match key {
            Variable(v) => Double(*values.get(v as usize).ok_or(15u32)?),
            Literal(z) => Double(z as f64),
            Raise(e) => stack.pop().unwrap().pow(e),
            Combine(code) => {
                let right = stack.pop().unwrap();
                combined(code, stack.pop().unwrap(), right)
            }
        };
        stack.push(pushed);
    }
    Ok(stack[0].0)
}
