// What the traced copy of the Rust tells (reference/traced): each change of the text with the step that made it and the row that the search before it found.

use std::cell::{Cell, RefCell};

pub struct Change {
    /// The step's function, without `r_`.
    pub step: &'static str,
    /// The letters of the row.
    pub row: &'static str,
    /// Whether the row was searched backwards.
    pub backwards: bool,
    /// The number of letters of the whole text after the change.
    pub left: usize,
}

thread_local! {
    static STEP: Cell<&'static str> = Cell::new("");
    static FOUND: Cell<Option<(&'static str, bool)>> = Cell::new(None);
    static CHANGES: RefCell<Vec<Change>> = RefCell::new(Vec::new());
}

/// A step begins. No step calls another.
pub fn begins(step: &'static str) {
    STEP.with(|it| it.set(step));
    FOUND.with(|it| it.set(None));
}

/// A search found a row. Hands on its class, which the search answers.
pub fn found(row: &'static str, backwards: bool, class: i32) -> i32 {
    FOUND.with(|it| it.set(Some((row, backwards))));
    class
}

/// The text was changed: `old` gave way, `text` is the whole of it now. Each change has a search of its own before it, and what gives way is the row.
pub fn changed(old: &str, text: &str) {
    let (row, backwards) = FOUND.with(|it| it.replace(None)).expect("a search with a row before the change");
    assert!(old == row, "a change of other letters than the row's");
    let change = Change { step: STEP.with(|it| it.get()), row: row, backwards: backwards, left: text.chars().count() };
    CHANGES.with(|it| it.borrow_mut().push(change));
}

/// The changes since the last call, in the order made.
pub fn changes() -> Vec<Change> {
    CHANGES.with(|it| it.replace(Vec::new()))
}
