//! Takes the Rust as it is, with the few textual changes that README.md lists, each of which must match as often as it says there.
mod take;

use std::path::PathBuf;
use std::{env, fs};
use take::once;

fn main() {
    let repository = PathBuf::from(env::var("CARGO_MANIFEST_DIR").unwrap()).join("..");
    let out = PathBuf::from(env::var("OUT_DIR").unwrap());
    let sources = take::sources(&repository);

    let mut symbolic = take::read(&sources, "symbolic.rs");
    // 1. the import of Rc: ours numbers each Rc::new
    symbolic = once(
        symbolic,
        "use std::{cmp::Ordering, fmt::Display, rc::Rc};",
        "use std::{cmp::Ordering, fmt::Display}; use crate::counted::Rc;",
    );
    // 2. a depth guard at the start of each constructor
    let two = |name: &str| format!("    fn {name}(lhs: Rc<SymGenFunKind<T>>, rhs: Rc<SymGenFunKind<T>>) -> Rc<SymGenFunKind<T>>\n    where\n        T: Number,\n    {{\n");
    let one = |name: &str| format!("    fn {name}(arg: Rc<SymGenFunKind<T>>) -> Rc<SymGenFunKind<T>>\n    where\n        T: Number,\n    {{\n");
    let mut heads: Vec<String> = ["add", "mul", "div"].iter().map(|n| two(n)).collect();
    heads.extend(["neg", "exp", "log"].iter().map(|n| one(n)));
    heads.push("    fn pow(base: Rc<SymGenFunKind<T>>, exp: u32) -> Rc<SymGenFunKind<T>>\n    where\n        T: Number,\n    {\n".into());
    heads.push("    fn max(lhs: Rc<SymGenFunKind<T>>, rhs: Rc<SymGenFunKind<T>>) -> Rc<SymGenFunKind<T>> {\n".into());
    for head in heads {
        symbolic = once(symbolic, &head, &format!("{head}        let _guard = crate::counted::enter();\n"));
    }
    fs::write(out.join("symbolic.rs"), symbolic).unwrap();

    // 3. the square after the exponent's highest one bit is not taken
    // 4. the tests are functions like others
    let taylor = take::times(take::taylor(&sources), 6, "#[test]\n", "");
    fs::write(out.join("univariate_taylor.rs"), taylor).unwrap();
    fs::write(out.join("number.rs"), take::read(&sources, "number/number.rs")).unwrap();
    fs::write(out.join("f64.rs"), take::read(&sources, "number/f64.rs")).unwrap();
    take::link(&repository);
}
