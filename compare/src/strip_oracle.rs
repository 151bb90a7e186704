// Included in the module of src/symbolic.rs, beside oracle.rs: the key strip of the Rust's expression, from the request's words.
use crate::machine;

/// "16 covers a reachable Exp or Log here, 19 a strip above 65,535 bytes": what is known of a node's strip. The bytes stop at the greatest number.
#[derive(Clone, Copy)]
struct Strip {
    no_code: bool,
    places: usize,
    bytes: u64,
}

/// A leaf stands in one place; a right part runs above the value of the left one; a base is raised where it stands.
fn strip_of(node: &Rc<Kind>, known: &mut [Option<Strip>]) -> Strip {
    let i = node.number() as usize;
    if let Some(found) = known[i] {
        return found;
    }
    let found = match node.as_ref() {
        Variable(_) => Strip { no_code: false, places: 1, bytes: 3 },
        Lit(_) => Strip { no_code: false, places: 1, bytes: 9 },
        Exp(a) | Log(a) => Strip { no_code: true, ..strip_of(a, known) },
        Pow(a, _) => {
            let a = strip_of(a, known);
            Strip { bytes: a.bytes.saturating_add(5), ..a }
        }
        Add(a, b) | Mul(a, b) | Div(a, b) | Max(a, b) => {
            let (a, b) = (strip_of(a, known), strip_of(b, known));
            let bytes = a.bytes.saturating_add(b.bytes).saturating_add(1);
            Strip { no_code: a.no_code || b.no_code, places: a.places.max(b.places + 1), bytes }
        }
    };
    known[i] = Some(found);
    found
}

/// "the expression's left part, right part, then its own code, shared parts repeated", "all low byte first"
fn put_strip(node: &Rc<Kind>, out: &mut Vec<u8>) {
    match node.as_ref() {
        Variable(v) => {
            out.push(1);
            out.extend((v.id() as u16).to_le_bytes());
        }
        Lit(z) => {
            out.push(2);
            out.extend(z.0.to_le_bytes());
        }
        Add(a, b) => put_parts(a, b, 3, out),
        Mul(a, b) => put_parts(a, b, 4, out),
        Div(a, b) => put_parts(a, b, 5, out),
        Max(a, b) => put_parts(a, b, 9, out),
        Pow(a, e) => {
            put_strip(a, out);
            out.push(8);
            out.extend(e.to_le_bytes());
        }
        Exp(_) | Log(_) => unreachable!("Exp and Log have no code"),
    }
}

fn put_parts(a: &Rc<Kind>, b: &Rc<Kind>, code: u8, out: &mut Vec<u8>) {
    put_strip(a, out);
    put_strip(b, out);
    out.push(code);
}

/// The strip, or 16, 27 or 19: "27 .. checked after 16 and before 19".
pub fn strip(root: u64) -> Vec<u8> {
    let node = nth(root);
    let strip = strip_of(&node, &mut vec![None; counted::count()]);
    if strip.no_code {
        counted::refuse(16);
    }
    if strip.places > machine::PLACES {
        counted::refuse(27);
    }
    if strip.bytes > 65_535 {
        counted::refuse(19);
    }
    let mut out = Vec::new();
    put_strip(&node, &mut out);
    assert_eq!((out.len() as u64, machine::needed(&out)), (strip.bytes, Some(strip.places)), "the strip of node {root}");
    out
}
