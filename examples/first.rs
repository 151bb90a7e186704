//! A first program: builds x^3 - 2x + 5, derives it, expands it at 2, prints all of it, writes the node file and reads it back. The same as first.c.
//!
//!     rustc examples/first.rs -L crates/bunlayog/out -o first
//!     ./first mine.bin
//!     ./sheet.sh mine.bin 0 3 2
//!
//! The file's name may be left out; the file is then written and read in memory alone.
mod bunlayog;

use bunlayog::{Pool, Refused};
use std::error::Error;

/// x^3 - 2x + 5, where x is variable 0, which is printed as a. A difference is a sum with a factor of -1, or here of -2.
fn build(pool: &mut Pool) -> Result<u64, Refused> {
    let x = pool.var(0)?;
    let cube = pool.pow(x, 3)?;
    let minus_two = pool.lit(-2)?;
    let product = pool.mul(minus_two, x)?;
    let five = pool.lit(5)?;
    let sum = pool.add(cube, product)?;
    pool.add(sum, five)
}

fn main() -> Result<(), Box<dyn Error>> {
    let mut pool = Pool::new();
    let root = build(&mut pool)?;
    println!("expression: {}", pool.print(root)?);
    let derivative = pool.derive(root, 0)?;
    println!("derivative: {}", pool.print(derivative)?);
    let expansion = pool.taylor_coeffs_at(root, 0, 2, 3)?;
    for (k, node) in expansion.entries().iter().enumerate() {
        println!("coefficient {k} at 2: {}", pool.print(*node)?);
    }

    let file = pool.write(root)?;
    println!("file: {} bytes", file.len());
    if let Some(name) = std::env::args().nth(1) {
        std::fs::write(name, &file)?;
    }

    let mut other = Pool::new();
    let back = other.read(&file)?;
    println!("read back: {}", other.print(back)?);
    println!("written again: {}", if other.write(back)? == file { "the same bytes" } else { "other bytes" });
    Ok(())
}
