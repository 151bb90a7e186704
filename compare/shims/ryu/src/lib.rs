//! The buffer of the crate ryu that the Display of `F64` names. No text of an `F64` is compared.
pub struct Buffer(String);

impl Buffer {
    pub fn new() -> Self {
        Buffer(String::new())
    }
    pub fn format(&mut self, x: f64) -> &str {
        self.0 = format!("{x:?}");
        &self.0
    }
}
