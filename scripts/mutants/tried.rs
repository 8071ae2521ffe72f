//! Which edits a call shows.

use crate::edits::{Mutant, CHECK};
use crate::on::{met, with, Met};
use crate::pool::Candidate;
use crate::{checks, formatter};
use oracle::answers::accepted_tree;
use oracle::source;
use oracle::stored::Record;
use oracle::text::accepted;
use std::collections::{BTreeSet, HashMap, HashSet};
use std::panic::{catch_unwind, AssertUnwindSafe};

/// A candidate with its tree, if it is accepted.
struct Tried<'a> {
    record: &'a Record,
    tree: Option<source::Tree>,
}

impl Tried<'_> {
    fn of(record: &Record) -> Tried<'_> {
        let tree = accepted_tree(&record.case).ok().map(|root| source::tree(&root));
        Tried { record, tree }
    }

    /// Whether the edit that is on shows in the check's answers.
    fn shows_check(&self) -> bool {
        let answered = catch_unwind(|| checks::answers::answer(&self.record.case));
        answered.ok() != Some(self.record.answered())
    }

    /// Whether the edit that is on shows in the layout: in its length alone where the space was too short.
    fn shows_layout(&self) -> bool {
        let (Some(tree), case) = (&self.tree, &self.record.case) else { return false };
        let config = formatter::FormatConfig { indent_width: case.width as usize, uppercase_keywords: case.case == 1 };
        let text = accepted(&case.text);
        let Ok(layout) = catch_unwind(AssertUnwindSafe(|| formatter::format(tree, &config, text))) else { return true };
        match self.record.laid_out.number {
            13 => layout.len() as u64 != self.record.laid_out.second,
            _ => layout.as_bytes() != self.record.layout,
        }
    }

    fn shows(&self, mutant: &Mutant) -> bool {
        with(mutant.edit, || if mutant.family == CHECK { self.shows_check() } else { self.shows_layout() })
    }

    /// What the call meets without an edit.
    fn met(&self) -> HashSet<Met> {
        met(|| assert!(!self.shows_check() && !self.shows_layout(), "the edited files differ without an edit"))
    }
}

/// The candidates that show each edit, the first ones of the pool and no more than enough.
pub fn shown(mutants: &[Mutant], pool: &[Candidate], enough: usize) -> Vec<Vec<usize>> {
    // An edit may well end in a panic, which is one way to show.
    std::panic::set_hook(Box::new(|_| {}));
    let mut by_met: HashMap<&Met, Vec<usize>> = HashMap::new();
    for (number, mutant) in mutants.iter().enumerate() {
        mutant.met.iter().for_each(|met| by_met.entry(met).or_default().push(number));
    }
    let mut showing = vec![Vec::new(); mutants.len()];
    for (place, one) in pool.iter().enumerate() {
        let tried = Tried::of(&one.record);
        let met = tried.met();
        let numbers: BTreeSet<usize> = met.iter().filter_map(|met| by_met.get(met)).flatten().copied().collect();
        for number in numbers {
            if showing[number].len() < enough && tried.shows(&mutants[number]) {
                showing[number].push(place);
            }
        }
    }
    drop(std::panic::take_hook());
    showing
}
