//! The edit that is on while a call is run, and the questions that the edited files ask about it.

use oracle::parser::syntax_kind::SyntaxKind;
use std::cell::{Cell, RefCell};
use std::collections::HashSet;

#[derive(Clone, Copy, PartialEq)]
pub enum Edit {
    None,
    /// The copy of a function with this number.
    Copy(usize),
    /// The test at this site answers otherwise for this kind.
    Flip(usize, u16),
    /// Nodes of this kind go to this routine.
    Move(u16, usize),
    /// The keyword list holds the second word instead of the first; either may be missing.
    Words(Option<&'static str>, Option<&'static str>),
    /// The list of values holds this word, or no longer.
    Value(&'static str),
    /// This character is white space, or no longer.
    White(char),
    /// This kind is not carried, or is.
    Carried(u16),
}

/// What a call must meet for an edit to be able to show.
#[derive(Clone, PartialEq, Eq, Hash)]
pub enum Met {
    Function(usize),
    Site(usize, u16),
    Kind(u16),
    Word(String),
    White(char),
    Carried(u16),
}

/// The most functions that a call with an edit may call; one that goes on is shown by never ending.
const MOST_STEPS: usize = 1_000_000;

thread_local! {
    static STEPS: Cell<usize> = const { Cell::new(0) };
    static ON: Cell<Edit> = const { Cell::new(Edit::None) };
    static MET: RefCell<HashSet<Met>> = RefCell::new(HashSet::new());
}

/// Runs with an edit on.
pub fn with<T>(edit: Edit, run: impl FnOnce() -> T) -> T {
    ON.set(edit);
    STEPS.set(0);
    let result = run();
    ON.set(Edit::None);
    result
}

/// Runs without an edit, and tells what is met.
pub fn met(run: impl FnOnce()) -> HashSet<Met> {
    MET.with_borrow_mut(HashSet::clear);
    run();
    MET.with_borrow(HashSet::clone)
}

fn meet(met: Met) {
    if ON.get() == Edit::None {
        MET.with_borrow_mut(|all| _ = all.insert(met));
    }
}

/// Called by each function of the formatter.
pub fn touch(function: usize) {
    STEPS.set(STEPS.get() + 1);
    assert!(STEPS.get() < MOST_STEPS || ON.get() == Edit::None);
    meet(Met::Function(function));
}

/// The copy that is to be called; 0 for none.
pub fn copy() -> usize {
    match ON.get() {
        Edit::Copy(number) => number,
        _ => 0,
    }
}

/// The answer of a test of a kind.
pub fn flipped(site: usize, kind: SyntaxKind, answer: bool) -> bool {
    let kind = kind as u16;
    meet(Met::Site(site, kind));
    answer ^ (ON.get() == Edit::Flip(site, kind))
}

/// The routine that a kind goes to, where it is not its own.
pub fn moved(kind: SyntaxKind) -> Option<usize> {
    meet(Met::Kind(kind as u16));
    match ON.get() {
        Edit::Move(from, routine) if from == kind as u16 => Some(routine),
        _ => None,
    }
}

/// Whether the keyword list holds a word.
pub fn listed(answer: bool, word: &str) -> bool {
    meet(Met::Word(word.to_string()));
    match ON.get() {
        Edit::Words(Some(gone), _) if gone == word => false,
        Edit::Words(_, Some(new)) if new == word => true,
        _ => answer,
    }
}

/// Whether the list of values holds a word.
pub fn value_listed(answer: bool, word: &str) -> bool {
    meet(Met::Word(word.to_string()));
    answer ^ (matches!(ON.get(), Edit::Value(value) if value == word))
}

/// Whether a character is white space.
pub fn white(answer: bool, character: char) -> bool {
    meet(Met::White(character));
    answer ^ (ON.get() == Edit::White(character))
}

/// Whether a kind is carried.
pub fn carried(answer: bool, kind: u16) -> bool {
    meet(Met::Carried(kind));
    answer ^ (ON.get() == Edit::Carried(kind))
}
