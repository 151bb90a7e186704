//! Random key strips: made of the pool's expressions and of random keys, as they are and damaged, and run.
use crate::call::{Call, Given};
use crate::machine::PLACES;
use crate::random::Random;
use crate::run::Run;
use crate::whole;

/// Values with NaN, infinities, -0 and denormals among them, now and then too few or too many.
fn values(random: &mut Random) -> Vec<f64> {
    let n = random.values();
    (0..n).map(|_| if random.below(6) == 0 { f64::from_bits(random.next() >> 12) } else { random.double() }).collect()
}

fn push(random: &mut Random, strip: &mut Vec<u8>) {
    if random.below(2) == 0 {
        strip.push(1);
        strip.extend((random.variable() as u16).to_le_bytes());
    } else {
        strip.push(2);
        let z = random.literal();
        strip.extend((if random.below(50) == 0 { z } else { z % whole::MAX }).to_le_bytes());
    }
}

/// The strip of a random tree: keys that find their values, and then such that one is left. Now and then it comes near the last place.
pub fn of_keys(random: &mut Random) -> Vec<u8> {
    let (mut strip, mut used) = (Vec::new(), 1);
    push(random, &mut strip);
    if random.below(12) == 0 {
        used = PLACES as u64 - 2 + random.below(4);
        (1..used).for_each(|_| push(random, &mut strip));
    }
    for _ in 0..random.below(16) {
        match random.below(5) {
            0 | 1 => {
                push(random, &mut strip);
                used += 1;
            }
            2 => {
                strip.push(8);
                strip.extend(random.exponent().max(2).to_le_bytes());
            }
            _ if used > 1 => {
                strip.push(random.one_of(&[3, 4, 5, 9]));
                used -= 1;
            }
            _ => {}
        }
    }
    (1..used).for_each(|_| strip.push(random.one_of(&[3, 4, 5, 9])));
    strip
}

/// Bytes that are seldom a strip.
fn of_bytes(random: &mut Random) -> Vec<u8> {
    let n = random.below(14);
    (0..n).map(|_| if random.below(3) > 0 { random.below(11) as u8 } else { random.next() as u8 }).collect()
}

/// A strip with a byte changed, cut off, with a byte more or less, or a piece of it twice.
pub fn damaged(random: &mut Random, mut strip: Vec<u8>) -> Vec<u8> {
    let at = random.below(strip.len().max(1) as u64) as usize;
    if strip.is_empty() {
        return strip;
    }
    match random.below(8) {
        0 => strip[at] ^= 1 << random.below(8),
        1 => strip[at] = random.below(11) as u8,
        2 => strip.truncate(at),
        3 => strip.insert(at, random.below(11) as u8),
        4 => strip.push(random.below(11) as u8),
        5 => {
            strip.remove(at);
        }
        6 => strip.extend_from_within(at..),
        _ => strip.extend_from_within(..),
    }
    strip
}

impl Run {
    fn run_strip(&mut self, strip: Vec<u8>) {
        let values = values(&mut self.random);
        let _ = self.both.call(&Call::RunStrip { strip, values });
    }

    /// Outputs of every length near that of the strip, and some other.
    fn strip_rooms(&mut self, root: u64) {
        let length = if let Ok(Given::Bytes(strip)) = (Call::Strip { root, room: 65_535 }).theirs() { strip.len() } else { 0 };
        let other = self.random.below(100) as usize;
        for room in (length.saturating_sub(3)..=length + 3).chain([0, other, 65_534, 65_535, 65_536]) {
            let _ = self.both.call(&Call::Strip { root, room });
        }
    }

    pub fn strip_step(&mut self, root: u64) {
        match self.random.below(16) {
            0 => self.strip_rooms(root),
            1..=4 => {
                let values = values(&mut self.random);
                let _ = self.both.strip_and_run(root, &values);
            }
            5..=7 => {
                let Ok(Given::Bytes(strip)) = self.both.call(&Call::Strip { root, room: 65_535 }) else { return };
                let strip = damaged(&mut self.random, strip);
                self.run_strip(strip);
            }
            8..=11 => {
                let strip = of_keys(&mut self.random);
                self.run_strip(strip);
            }
            12..=14 => {
                let strip = of_keys(&mut self.random);
                let strip = damaged(&mut self.random, strip);
                self.run_strip(strip);
            }
            _ => {
                let strip = of_bytes(&mut self.random);
                self.run_strip(strip);
            }
        }
    }
}
