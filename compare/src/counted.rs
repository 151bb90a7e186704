//! An `Rc` that numbers each `Rc::new`, as the pool does, and the depth of the constructors. A refusal is a panic with its number.
use std::cell::{Cell, RefCell};
use std::ops::Deref;

pub const LIMIT: usize = 4096;
const DEPTH: u32 = 200;

/// A refusal of document 01.
pub struct Refusal(pub u32);

pub fn refuse(number: u32) -> ! {
    std::panic::panic_any(Refusal(number))
}

struct Numbered<T: ?Sized> {
    number: u32,
    value: T,
}

pub struct Rc<T: ?Sized>(std::rc::Rc<Numbered<T>>);

/// A node that was made, of whatever type, kept alive until it is forgotten.
struct Made {
    raw: *const (),
    drop: unsafe fn(*const ()),
}

thread_local! {
    static NODES: RefCell<Vec<Made>> = const { RefCell::new(Vec::new()) };
    static DEEP: Cell<u32> = const { Cell::new(0) };
}

unsafe fn drop_raw<T>(raw: *const ()) {
    drop(std::rc::Rc::from_raw(raw as *const Numbered<T>));
}

impl<T> Rc<T> {
    pub fn new(value: T) -> Self {
        let number = NODES.with(|n| n.borrow().len());
        if number >= LIMIT {
            refuse(18);
        }
        let made = std::rc::Rc::new(Numbered { number: number as u32, value });
        let raw = std::rc::Rc::into_raw(made.clone()) as *const ();
        NODES.with(|n| n.borrow_mut().push(Made { raw, drop: drop_raw::<T> }));
        Rc(made)
    }

    pub fn strong_count(this: &Self) -> usize {
        std::rc::Rc::strong_count(&this.0)
    }

    pub fn number(&self) -> u32 {
        self.0.number
    }

    /// The node with a number. All nodes of a run have one type.
    ///
    /// # Safety
    /// The node was made as an `Rc<T>`.
    pub unsafe fn nth(i: usize) -> Self {
        let raw = NODES.with(|n| n.borrow()[i].raw) as *const Numbered<T>;
        std::rc::Rc::increment_strong_count(raw);
        Rc(std::rc::Rc::from_raw(raw))
    }
}

impl<T: ?Sized> Deref for Rc<T> {
    type Target = T;
    fn deref(&self) -> &T {
        &self.0.value
    }
}

impl<T: ?Sized> AsRef<T> for Rc<T> {
    fn as_ref(&self) -> &T {
        &self.0.value
    }
}

impl<T: ?Sized> Clone for Rc<T> {
    fn clone(&self) -> Self {
        Rc(self.0.clone())
    }
}

impl<T: std::fmt::Debug> std::fmt::Debug for Rc<T> {
    fn fmt(&self, f: &mut std::fmt::Formatter<'_>) -> std::fmt::Result {
        self.0.value.fmt(f)
    }
}

impl<T: PartialEq> PartialEq for Rc<T> {
    fn eq(&self, other: &Self) -> bool {
        self.0.value == other.0.value
    }
}

pub fn count() -> usize {
    NODES.with(|n| n.borrow().len())
}

/// Forgets the nodes from a number on.
pub fn forget_from(count: usize) {
    let rest = NODES.with(|n| n.borrow_mut().split_off(count));
    for made in rest.into_iter().rev() {
        unsafe { (made.drop)(made.raw) };
    }
}

pub struct Guard;

/// At the start of a constructor: 14 at depth 201.
pub fn enter() -> Guard {
    let deep = DEEP.with(|d| d.get()) + 1;
    if deep > DEPTH {
        refuse(14);
    }
    DEEP.with(|d| d.set(deep));
    Guard
}

impl Drop for Guard {
    fn drop(&mut self) {
        DEEP.with(|d| d.set(d.get() - 1));
    }
}
