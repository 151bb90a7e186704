//! Takes the Rust as it is, but for the last square of `pow`, and compiles the plain check, the plain strips and the code that moves all other in C.
#[path = "../take.rs"]
mod take;

use std::path::PathBuf;
use std::process::Command;
use std::{env, fs};

fn main() {
    let here = PathBuf::from(env::var("CARGO_MANIFEST_DIR").unwrap());
    let repository = here.join("../..");
    let out = PathBuf::from(env::var("OUT_DIR").unwrap());
    let sources = take::sources(&repository);
    fs::write(out.join("symbolic.rs"), take::read(&sources, "symbolic.rs")).unwrap();
    // the last square of pow is not taken, so that both sides do the same work
    fs::write(out.join("univariate_taylor.rs"), take::taylor(&sources)).unwrap();
    fs::write(out.join("number.rs"), take::read(&sources, "number/number.rs")).unwrap();

    compile(&here, &out, "moved", "-O0");
    compile(&here, &out, "check", "-O3");
    compile(&here, &out, "strips", "-O2");
    take::link(&repository);
}

/// A C source as an archive of its own, by `cc`.
fn compile(here: &PathBuf, out: &PathBuf, name: &str, level: &str) {
    let source = here.join(format!("{name}.c"));
    let object = out.join(format!("{name}.o"));
    println!("cargo:rerun-if-changed={}", source.display());
    let run = |command: &mut Command| assert!(command.status().expect("cc and ar").success());
    // what moved.c has before all other code, so that the same code lies elsewhere in another link
    println!("cargo:rerun-if-env-changed=BUNLAYOG_MOVED");
    let moved = format!("-DMOVED={}", env::var("BUNLAYOG_MOVED").unwrap_or("0".into()));
    run(Command::new("cc").args([level, &moved, "-std=c99", "-Wall", "-Wextra", "-c", "-o"]).arg(&object).arg(&source));
    run(Command::new("ar").arg("crs").arg(out.join(format!("libplain_{name}.a"))).arg(&object));
    println!("cargo:rustc-link-search=native={}", out.display());
    println!("cargo:rustc-link-lib=static=plain_{name}");
}
