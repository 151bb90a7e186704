//! The sheet by document 01's words, in plain Rust over the Rust's expansions and Display: what the program `sheet` is compared with.
use crate::call::{rust, Call, Given};
use crate::counted;
use crate::damage;
use crate::file::{self, Entry};
use crate::random::Random;
use crate::symbolic::oracle;
use crate::{whole, worst};
use std::collections::BTreeMap;
use std::io::Write;
use std::path::{Path, PathBuf};
use std::process::{Command, Stdio};

/// "a line of variable, order and, if wanted, point". Numbers that no limit lets through may be cut down to the greatest of their type.
struct Line {
    variable: u128,
    order: u128,
    point: Option<i128>,
}

/// "decimals without leading zeros"
fn decimal(digits: &[u8]) -> Option<u128> {
    let form = !digits.is_empty() && digits.iter().all(u8::is_ascii_digit) && (digits.len() == 1 || digits[0] != b'0');
    form.then(|| digits.iter().fold(0u128, |n, d| n.saturating_mul(10).saturating_add((d - b'0') as u128)))
}

/// "a minus only before a nonzero point"
fn point(word: &[u8]) -> Option<i128> {
    let size = |digits: &[u8]| decimal(digits).map(|n| n.min(i128::MAX as u128) as i128);
    match word.strip_prefix(b"-") {
        Some(digits) => size(digits).filter(|n| *n != 0).map(|n| -n),
        None => size(word),
    }
}

/// "one space between, .. a line end (hexadecimal 0A, as printed lines have) or none, 64 bytes at most"
fn parse(input: &[u8]) -> Option<Line> {
    if input.len() > 64 {
        return None;
    }
    let line = input.strip_suffix(b"\n").unwrap_or(input);
    let words: Vec<&[u8]> = line.split(|b| *b == b' ').collect();
    let (variable, order, given) = match words[..] {
        [v, o] => (v, o, None),
        [v, o, p] => (v, o, Some(p)),
        _ => return None,
    };
    let point = match given {
        None => None,
        Some(word) => Some(point(word)?),
    };
    Some(Line { variable: decimal(variable)?, order: decimal(order)?, point })
}

/// The coefficients' texts: "File and line then count as the arguments of one call, smallest number first."
fn coefficients(nodes: &[u8], line: &Line) -> Result<Vec<Vec<u8>>, u32> {
    if line.variable > 65_535 {
        return Err(3);
    }
    if line.point.is_some_and(|z| z.unsigned_abs() > whole::MAX as u128) {
        return Err(4);
    }
    if line.order > 24 {
        return Err(5);
    }
    counted::forget_from(0);
    let entries = file::read(nodes, 0)?;
    let root = entries.iter().map(|(kind, word)| oracle::raw(*kind, *word)).last().unwrap();
    let (var, order) = (line.variable as u64, line.order as u64);
    let call = match line.point {
        None => Call::TaylorCoeffs { root, var, order },
        Some(z) => Call::TaylorCoeffsAt { root, var, point: z as i64, order },
    };
    let Given::Expansion(s) = call.theirs()? else { unreachable!() };
    // "19 here means one coefficient's text above 65,535 bytes"
    s.nodes().iter().map(|node| rust(|| oracle::print(*node))).collect()
}

/// The whole text that is printed, and what it is counted as: 0 for a sheet, a refusal number, or 100 for `usage`.
fn sheet(nodes: &[u8], input: &[u8]) -> (Vec<u8>, u32) {
    let Some(line) = parse(input) else { return (b"usage\n".to_vec(), 100) };
    match coefficients(nodes, &line) {
        Err(number) => (format!("refused {number}\n").into_bytes(), number),
        Ok(texts) => {
            let point = line.point.map_or("none".to_string(), |z| z.to_string());
            let mut out = format!("{} {} {point}\n", line.variable, line.order).into_bytes();
            for (k, text) in texts.iter().enumerate() {
                out.extend(format!("{k}: ").into_bytes());
                out.extend(text);
                out.push(b'\n');
            }
            (out, 0)
        }
    }
}

fn number_word(random: &mut Random) -> String {
    const SOME: [&str; 22] = [
        "0", "1", "2", "24", "25", "26", "65535", "65536", "9007199254740991", "9007199254740992", "9223372036854775808", "18446744073709551615",
        "18446744073709551616", "18446744073709551617", "340282366920938463463374607431768211456", "99999999999999999999", "00", "01", "", "+1", "a", "1a",
    ];
    random.one_of(&SOME).to_string()
}

/// A line, mostly of the right form.
fn random_line(random: &mut Random) -> Vec<u8> {
    let mut variable = random.below(3).to_string();
    let mut order = if random.below(8) == 0 { random.below(25) } else { random.below(5) }.to_string();
    let mut point = match random.below(4) {
        0 | 1 => None,
        2 => Some((random.below(9) as i64 - 4).to_string()),
        _ => Some(random.literal().to_string()),
    };
    match random.below(16) {
        0 => variable = number_word(random),
        1 => order = number_word(random),
        2 => point = Some(number_word(random)),
        3 => point = Some(format!("-{}", number_word(random))),
        _ => {}
    }
    let mut words = vec![variable, order];
    words.extend(point);
    let end = if random.below(4) == 0 { "" } else { "\n" };
    if random.below(6) == 0 { misshapen(random, words, end) } else { (words.join(" ") + end).into_bytes() }
}

/// A line with one thing wrong with its form, or nearly so.
fn misshapen(random: &mut Random, mut words: Vec<String>, end: &str) -> Vec<u8> {
    match random.below(7) {
        0 => {
            words.pop();
        }
        1 => words.push("7".to_string()),
        2 => return (words.join(random.one_of(&["  ", "\t", ""])) + end).into_bytes(),
        3 => return (words.join(" ") + random.one_of(&["\r\n", "\n\n", " \n", "\n0", "\0"])).into_bytes(),
        4 => return (random.one_of(&[" ", "\n", "+", "-"]).to_string() + &words.join(" ") + end).into_bytes(),
        5 => {
            // as long as a line may be, and a byte around it
            let line = words.join(" ");
            let digits = (62 + random.below(4) as usize).saturating_sub(line.len());
            return (line + &"9".repeat(digits) + end).into_bytes();
        }
        _ => {
            let mut line = (words.join(" ") + end).into_bytes();
            let at = random.below(line.len() as u64) as usize;
            line[at] = random.next() as u8;
            return line;
        }
    }
    (words.join(" ") + end).into_bytes()
}

/// Nodes that constructors make.
fn random_expression(random: &mut Random) -> Vec<Entry> {
    counted::forget_from(0);
    let with_max = random.below(5) == 0;
    (0..3).for_each(|v| {
        oracle::var(v);
    });
    for _ in 0..2 + random.below(20) {
        let count = counted::count() as u64;
        let (a, b) = (random.node(count).min(count - 1), random.node(count).min(count - 1));
        let _ = rust(|| match random.below(16) {
            0 | 1 => oracle::lit(random.literal().clamp(-whole::MAX, whole::MAX)),
            2..=5 => oracle::add(a, b),
            6..=9 => oracle::mul(a, b),
            10 | 11 => oracle::div(a, b),
            12 => oracle::exp(a),
            13 => oracle::log(a),
            14 if with_max => oracle::max(a, b),
            _ => oracle::pow(a, random.exponent()),
        });
    }
    oracle::entries()
}

/// nodes.bin, or none.
fn random_nodes(random: &mut Random) -> Option<Vec<u8>> {
    let file = match random.below(24) {
        0 => return None,
        1 => vec![0; random.below(5) as usize],
        2 => return Some(damage::random_file(random)),
        3 => {
            let n = 1 + random.below(4096) as usize;
            file::written(&worst::chain(random.one_of(&[3, 4, 5, 6, 7, 8, 9]), random.below(2) == 0, n), n - 1)
        }
        4 => file::written(&worst::doublings(random.one_of(&[3, 4, 5]), 40), 10 + random.below(30) as usize),
        5 => {
            let mut file = file::written(&worst::chain(3, true, 4096), 4095);
            file.resize(36_868 + random.below(4) as usize * 4096, 0);
            return Some(file);
        }
        // exp or log of a variable, which a point may have none of
        6 => file::written(&worst::chain(6 + random.below(2) as u8, true, 2), 1),
        _ => {
            let nodes = random_expression(random);
            file::written(&nodes, nodes.len() - 1)
        }
    };
    Some(if file.len() > 12 && random.below(3) == 0 { damage::file(random, file) } else { file })
}

/// What the program prints in a folder, with its status.
fn printed(program: &Path, folder: &Path, input: &[u8]) -> (Vec<u8>, Vec<u8>, Option<i32>) {
    let mut child = Command::new(program)
        .current_dir(folder)
        .stdin(Stdio::piped())
        .stdout(Stdio::piped())
        .stderr(Stdio::piped())
        .spawn()
        .expect("the program sheet");
    // a program that has what it needs may close its input first
    let _ = child.stdin.take().unwrap().write_all(input);
    let output = child.wait_with_output().unwrap();
    (output.stdout, output.stderr, output.status.code())
}

fn compare(program: &Path, folder: &Path, nodes: Option<Vec<u8>>, input: &[u8]) -> u32 {
    let path = folder.join("nodes.bin");
    let _ = std::fs::remove_file(&path);
    if let Some(bytes) = &nodes {
        std::fs::write(&path, bytes).unwrap();
    }
    let (expected, kind) = sheet(&nodes.clone().unwrap_or_default(), input);
    let (stdout, stderr, status) = printed(program, folder, input);
    if stdout != expected || !stderr.is_empty() || status != Some(0) {
        eprintln!("the sheet differs on the line {:?} and nodes.bin {nodes:02x?}", String::from_utf8_lossy(input));
        eprintln!("expected {:?}", String::from_utf8_lossy(&expected));
        eprintln!("printed {:?} {:?}, status {status:?}", String::from_utf8_lossy(&stdout), String::from_utf8_lossy(&stderr));
        panic!("a difference");
    }
    kind
}

/// Runs the program on random files and lines. Says whether every outcome that these can have was met; a missing program is no failure.
pub fn all(seed: u64) -> bool {
    const RUNS: u64 = 500;
    let program = PathBuf::from(concat!(env!("CARGO_MANIFEST_DIR"), "/../crates/sheet/out/sheet"));
    if !program.exists() {
        println!("skipped: crates/sheet/out/sheet is not here, so the sheet was not compared");
        return true;
    }
    let folder = std::env::temp_dir().join(format!("bunlayog-compare-{}", std::process::id()));
    std::fs::create_dir_all(&folder).unwrap();
    let mut random = Random(seed | 1);
    let mut met: BTreeMap<u32, u64> = BTreeMap::new();
    for _ in 0..RUNS {
        let (nodes, line) = (random_nodes(&mut random), random_line(&mut random));
        *met.entry(compare(&program, &folder, nodes, &line)).or_default() += 1;
    }
    std::fs::remove_dir_all(&folder).unwrap();
    counted::forget_from(0);
    let times = |kind: u32| met.get(&kind).copied().unwrap_or(0);
    let refused: Vec<String> = met.iter().filter(|(k, _)| (1..=19).contains(*k)).map(|(k, n)| format!("{k}: {n}")).collect();
    println!("the sheet: {RUNS} runs as by document 01: {} sheets, {} usage, refused by {}", times(0), times(100), refused.join(", "));
    [0, 3, 4, 5, 7, 8, 9, 10, 11, 12, 18, 19, 100].iter().all(|kind| times(*kind) > 0)
}
