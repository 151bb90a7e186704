//! Document 01's table of kinds, rules of the pool and node file, in plain Rust: what the engine's are compared with.
use crate::counted::LIMIT;
use crate::whole;

pub type Entry = (u8, u64);

fn left(word: u64) -> u64 {
    word & 0xffff_ffff
}
fn right(word: u64) -> u64 {
    word >> 32
}

/// The parts of a node, left first.
fn parts((kind, word): Entry) -> Vec<usize> {
    match kind {
        3 | 4 | 5 | 9 => vec![left(word) as usize, right(word) as usize],
        6 | 7 => vec![word as usize],
        8 => vec![left(word) as usize],
        _ => vec![],
    }
}

/// A node by the table of kinds, its parts renumbered.
fn renumbered((kind, word): Entry, number: impl Fn(usize) -> usize) -> Entry {
    let number = |i: u64| number(i as usize) as u64;
    match kind {
        3 | 4 | 5 | 9 => (kind, number(left(word)) + (number(right(word)) << 32)),
        6 | 7 => (kind, number(word)),
        8 => (kind, number(left(word)) + (right(word) << 32)),
        _ => (kind, word),
    }
}

/// A node whose parts come so much later.
pub fn shifted(node: Entry, by: usize) -> Entry {
    renumbered(node, |part| part + by)
}

/// Whether an entry is a node by the table and the literal range, with each part below its own number.
pub fn is_node((kind, word): Entry, i: usize) -> bool {
    let i = i as u64;
    match kind {
        1 => word <= 65_535,
        2 => (word as i64).unsigned_abs() <= whole::MAX as u64,
        3 | 4 | 5 | 9 => left(word) < i && right(word) < i,
        6 | 7 => word < i,
        8 => left(word) < i && right(word) >= 2,
        _ => false,
    }
}

/// "The pool is a lent table of 4,096 kinds, one of 4,096 words, and a count from 0 to 4,096. .. entries from the count on are 0 in both tables."
pub fn is_pool(kinds: &[u8], words: &[u64], count: u64) -> bool {
    kinds.len() == LIMIT
        && words.len() == LIMIT
        && count <= LIMIT as u64
        && (0..LIMIT).all(|i| if (i as u64) < count { is_node((kinds[i], words[i]), i) } else { kinds[i] == 0 && words[i] == 0 })
}

/// "A walk from the root numbers a node, from 0, when its parts are done, left first, each node once": the nodes by their numbers.
fn order(entries: &[Entry], root: usize) -> Vec<usize> {
    fn visit(entries: &[Entry], i: usize, seen: &mut [bool], order: &mut Vec<usize>) {
        if seen[i] {
            return;
        }
        seen[i] = true;
        for part in parts(entries[i]) {
            visit(entries, part, seen, order);
        }
        order.push(i);
    }
    let mut order = Vec::new();
    visit(entries, root, &mut vec![false; entries.len()], &mut order);
    order
}

pub fn written(entries: &[Entry], root: usize) -> Vec<u8> {
    let order = order(entries, root);
    let mut number = vec![0; entries.len()];
    for (n, i) in order.iter().enumerate() {
        number[*i] = n;
    }
    let nodes: Vec<Entry> = order.iter().map(|i| renumbered(entries[*i], |part| number[part])).collect();
    let mut file = (nodes.len() as u32).to_le_bytes().to_vec();
    file.extend(nodes.iter().map(|node| node.0));
    nodes.iter().for_each(|node| file.extend(node.1.to_le_bytes()));
    file
}

/// The nodes that reading appends to a pool with this count, or 7, 8, 9 or 18.
pub fn read(file: &[u8], count: usize) -> Result<Vec<Entry>, u32> {
    if file.len() < 4 {
        return Err(7);
    }
    let n = u32::from_le_bytes(file[..4].try_into().unwrap()) as usize;
    if n == 0 || n > LIMIT || file.len() != 4 + 9 * n {
        return Err(7);
    }
    let word = |i: usize| u64::from_le_bytes(file[4 + n + 8 * i..][..8].try_into().unwrap());
    let entries: Vec<Entry> = (0..n).map(|i| (file[4 + i], word(i))).collect();
    if !(0..n).all(|i| is_node(entries[i], i)) {
        return Err(8);
    }
    if order(&entries, n - 1) != (0..n).collect::<Vec<_>>() {
        return Err(9);
    }
    if count + n > LIMIT {
        return Err(18);
    }
    Ok(entries.iter().map(|entry| shifted(*entry, count)).collect())
}
