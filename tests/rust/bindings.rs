//! Every call of examples/bunlayog.rs once. What is expected was worked out by hand from docs/SPECIFICATION.md.
#[path = "../../examples/bunlayog.rs"]
mod bunlayog;

use bunlayog::{run_strip, Expansion, Pool, Refused, CONSTANT, PLACES_MAX, STRIP_MAX, TERMS};

fn texts(pool: &Pool, e: &Expansion) -> Vec<String> {
    e.entries().iter().map(|node| pool.print(*node).unwrap()).collect()
}

/// The texts of the answer's coefficients.
macro_rules! gives {
    ($pool:ident.$call:ident($($arg:expr),*), $($text:expr),*) => {{
        let e = $pool.$call($($arg),*).unwrap();
        assert_eq!(texts(&$pool, &e), [$($text),*], stringify!($call));
        e
    }};
}

/// The text of the answer.
macro_rules! prints {
    ($pool:ident.$call:ident($($arg:expr),*), $text:expr) => {{
        let node = $pool.$call($($arg),*).unwrap();
        assert_eq!($pool.print(node).unwrap(), $text, stringify!($call));
        node
    }};
}

fn nodes() {
    let mut pool = Pool::new();
    assert_eq!(pool.check(), Ok(()));
    let x = prints!(pool.var(0), "a");
    let y = prints!(pool.var(1), "b");
    let two = prints!(pool.lit(2), "2");
    prints!(pool.add(x, two), "a + 2");
    let product = prints!(pool.mul(x, y), "a*b");
    prints!(pool.mul(x, two), "2*a");
    prints!(pool.div(x, y), "a/b");
    prints!(pool.neg(x), "-1*a");
    prints!(pool.exp(x), "exp(a)");
    prints!(pool.log(x), "log(a)");
    let cube = prints!(pool.pow(x, 3), "a^3");
    prints!(pool.substitute_var(product, 0, two), "2*b");
    prints!(pool.derive(cube, 0), "3*a^2");
    let greater = pool.max(x, two).unwrap();
    assert_eq!(pool.print(greater), Err(Refused(10)));
    assert_eq!(pool.evaluate(greater, &[3.5]), Ok(3.5));
    assert_eq!(pool.evaluate(product, &[3.5]), Err(Refused(15)));
    let half = pool.lit(1).and_then(|one| pool.div(one, two)).unwrap();
    assert_eq!(pool.evaluate_residue(half, &[]), Ok(1_073_741_824));
    assert_eq!(pool.lit(9_007_199_254_740_992), Err(Refused(4)));
    assert_eq!(format!("{}", Refused(4)), "refused 4");

    let file = pool.write(product).unwrap();
    let mut other = Pool::new();
    assert_eq!(other.read(&file), Ok(2));
    assert_eq!(other.read(&file), Ok(5));
    assert_eq!(other.read(&file[1..]), Err(Refused(7)));
    assert_eq!((other.count, other.check()), (6, Ok(())));
    other.count = 7;
    assert_eq!(other.check(), Err(Refused(1)));
}

fn expansions() {
    let mut pool = Pool::new();
    let (zero, one) = (pool.lit(0).unwrap(), pool.lit(1).unwrap());
    let x = pool.var(0).unwrap();
    let at_0 = gives!(pool.taylor_var(zero, 2), "0", "1", "0");
    let at_1 = gives!(pool.taylor_var(one, 2), "1", "1", "0");
    let mut coeffs = [9999; TERMS];
    coeffs[0] = one;
    let constant = gives!(pool.taylor_from_coefficients(&Expansion { length: CONSTANT, coeffs }), "1");
    assert_eq!(pool.taylor_order(&at_0), Ok(3));
    assert_eq!(pool.taylor_order(&constant), Ok(CONSTANT));
    prints!(pool.taylor_coeff(&at_1, 1), "1");
    prints!(pool.taylor_derivative(&at_1, 2), "0");
    gives!(pool.taylor_exp(&at_0), "1", "1", "1/2");
    gives!(pool.taylor_log(&at_1), "0", "1", "-1/2");
    gives!(pool.taylor_neg(&at_1), "-1", "-1", "0");
    gives!(pool.taylor_pow(&at_0, 2), "0", "0", "1");
    gives!(pool.taylor_add(&at_1, &at_0), "1", "2", "0");
    gives!(pool.taylor_sub(&at_1, &at_0), "1", "0", "0");
    gives!(pool.taylor_mul(&at_0, &at_1), "0", "1", "1");
    gives!(pool.taylor_div(&at_0, &at_1), "0", "1", "-1");
    gives!(pool.taylor_subst(&at_1, &at_0), "1", "1", "0");
    assert_eq!(pool.taylor_max(&at_0, &constant), Err(Refused(10)));
    assert_eq!(pool.taylor_max(&constant, &constant).map(|e| e.length), Ok(CONSTANT));
    let square = pool.mul(x, x).unwrap();
    gives!(pool.taylor_coeffs(square, 0, 2), "a*a", "a + a", "1");
    gives!(pool.taylor_coeffs_at(square, 0, 3, 2), "9", "6", "1");
    assert_eq!(pool.taylor_coeffs(square, 0, 25), Err(Refused(5)));
}

/// A right-nested sum of so many leaves, all of them x0.
fn leaves(pool: &mut Pool, n: usize) -> u64 {
    let x = pool.var(0).unwrap();
    (1..n).fold(x, |sum, _| pool.add(x, sum).unwrap())
}

fn strips() {
    let mut pool = Pool::new();
    let x = pool.var(0).unwrap();
    let (one, three) = (pool.lit(1).unwrap(), pool.lit(3).unwrap());
    let third = pool.div(one, three).unwrap();
    assert_eq!(pool.strip(x).unwrap(), [1, 0, 0]);
    let strip = pool.strip(third).unwrap();
    assert_eq!(strip, [2, 1, 0, 0, 0, 0, 0, 0, 0, 2, 3, 0, 0, 0, 0, 0, 0, 0, 5]);
    assert_eq!(run_strip(&strip, &[]).map(f64::to_bits), Ok(0x3fd5_5555_5555_5555));
    assert_eq!(run_strip(&strip[..18], &[]), Err(Refused(28)));
    assert_eq!(run_strip(&[1, 1, 0], &[2.0]), Err(Refused(15)));
    let exp = pool.exp(x).unwrap();
    assert_eq!(pool.strip(exp), Err(Refused(16)));
    let most = leaves(&mut pool, PLACES_MAX);
    let strip = pool.strip(most).unwrap();
    assert!(strip.len() == 4 * PLACES_MAX - 1 && strip.len() < STRIP_MAX);
    assert_eq!(run_strip(&strip, &[0.5]), Ok(64.0));
    let more = leaves(&mut pool, PLACES_MAX + 1);
    assert_eq!(pool.strip(more), Err(Refused(27)));
}

fn main() {
    nodes();
    expansions();
    strips();
}
