//! The Rust as it is. Its `Rc` is std's.
pub mod number {
    include!(concat!(env!("OUT_DIR"), "/number.rs"));
}
pub mod univariate_taylor {
    include!(concat!(env!("OUT_DIR"), "/univariate_taylor.rs"));
}
pub mod symbolic {
    include!(concat!(env!("OUT_DIR"), "/symbolic.rs"));
}
