//! The choice of calls for the stored list.

use crate::edits::mutants;
use crate::pool::{pool, Candidate};
use crate::tried::shown;
use oracle::arms;
use oracle::cases::Class;
use std::cmp::Reverse;
use std::collections::{BTreeMap, BTreeSet, BinaryHeap, HashSet};

/// An edit is not tried further once so many calls show it.
const ENOUGH: usize = 40;

/// How many records of each class there are at least: calls that 1 to 12 accept, or of any answer.
const LEAST: [(&str, usize, Counted); 10] = [
    ("parser", 150, Counted::Accepted),
    ("wild", 150, Counted::Accepted),
    ("damaged", 250, Counted::Any),
    ("masked", 120, Counted::Accepted),
    ("limits", 40, Counted::Any),
    ("utf8", 80, Counted::Accepted),
    ("utf8-small", 150, Counted::Accepted),
    ("utf8-damaged", 200, Counted::Any),
    ("utf8-masked", 80, Counted::Accepted),
    ("utf8-limits", 10, Counted::Any),
];

#[derive(PartialEq)]
enum Counted {
    Accepted,
    Any,
}

/// How many records of each refusal there are, with places that differ as far as they can.
const REFUSALS: usize = 25;

/// The most bytes of a record that is there to fill its class.
const MOST_BYTES_TO_FILL: usize = 700;

/// The calls of the list in its order: those made by hand as they are named, then the classes.
pub fn choose() -> Vec<Candidate> {
    let pool = pool();
    let showing = shown(&mutants(), &pool, ENOUGH);
    let needed = covering(&[showing, taking(&pool)].concat(), &pool);
    let all = filled(needed, &pool);
    let mut order: Vec<Candidate> =
        pool.into_iter().enumerate().filter(|(place, _)| all.contains(place)).map(|(_, one)| one).collect();
    order.sort_by_key(|one| (Class::ALL.iter().position(|(name, _)| *name == one.class()), one.index()));
    order
}

/// The candidates that take each arm, the first small ones of the pool.
fn taking(pool: &[Candidate]) -> Vec<Vec<usize>> {
    let mut left: BTreeMap<String, Vec<usize>> = arms::every().into_iter().map(|arm| (arm, Vec::new())).collect();
    let mut done = Vec::new();
    for place in (0..pool.len()).filter(|place| pool[*place].class() == "small") {
        for arm in arms::taken(&pool[place].record.case) {
            let Some(places) = left.get_mut(&arm) else { continue };
            places.push(place);
            if places.len() == ENOUGH {
                done.extend(left.remove(&arm));
            }
        }
        if left.is_empty() {
            break;
        }
    }
    assert!(left.values().all(|places| !places.is_empty()), "an arm that no call takes");
    done.extend(left.into_values());
    done
}

/// Candidates that show every edit that some show: always the one with the most new edits for its length.
fn covering(showing: &[Vec<usize>], pool: &[Candidate]) -> BTreeSet<usize> {
    let mut edits_of: BTreeMap<usize, Vec<usize>> = BTreeMap::new();
    for (edit, places) in showing.iter().enumerate() {
        places.iter().for_each(|place| edits_of.entry(*place).or_default().push(edit));
    }
    let mut left: HashSet<usize> = (0..showing.len()).filter(|edit| !showing[*edit].is_empty()).collect();
    let worth = |place: usize, left: &HashSet<usize>| {
        let new = edits_of[&place].iter().filter(|edit| left.contains(edit)).count();
        (new * 1_000_000 / (pool[place].bytes + 100), Reverse(place))
    };
    let mut heap: BinaryHeap<_> = edits_of.keys().map(|place| worth(*place, &left)).collect();
    let mut picked = Vec::new();
    while !left.is_empty() {
        let (_, Reverse(place)) = heap.pop().expect("an edit is left that some candidate shows");
        let now = worth(place, &left);
        if heap.peek().is_some_and(|next| now < *next) {
            heap.push(now);
            continue;
        }
        edits_of[&place].iter().for_each(|edit| _ = left.remove(edit));
        picked.push(place);
    }
    without_spare(picked, showing)
}

/// The picked ones without those that show nothing that the others do not.
fn without_spare(picked: Vec<usize>, showing: &[Vec<usize>]) -> BTreeSet<usize> {
    let mut kept: BTreeSet<usize> = picked.iter().copied().collect();
    let mut count: Vec<usize> =
        showing.iter().map(|places| places.iter().filter(|place| kept.contains(place)).count()).collect();
    for place in picked {
        let own: Vec<usize> = (0..showing.len()).filter(|edit| showing[*edit].binary_search(&place).is_ok()).collect();
        if own.iter().all(|edit| count[*edit] > 1) {
            own.iter().for_each(|edit| count[*edit] -= 1);
            kept.remove(&place);
        }
    }
    kept
}

/// Adds what else the list is to hold: all calls made by hand, every refusal, and enough of each class.
fn filled(mut chosen: BTreeSet<usize>, pool: &[Candidate]) -> BTreeSet<usize> {
    chosen.extend((0..pool.len()).filter(|place| pool[*place].is_by_hand()));
    for number in (1..=13).chain(15..=16) {
        add_refusals(&mut chosen, pool, number);
    }
    for (class, least, counted) in LEAST {
        let counts = |one: &Candidate| counted == Counted::Any || [0, 13].contains(&one.record.laid_out.number);
        let fits = |one: &Candidate| one.class() == class && one.bytes <= MOST_BYTES_TO_FILL && counts(one);
        let mut fitting: Vec<usize> = (0..pool.len()).filter(|place| fits(&pool[*place])).collect();
        fitting.sort_by_key(|place| pool[*place].index());
        let (there, new): (Vec<usize>, Vec<usize>) = fitting.into_iter().partition(|place| chosen.contains(place));
        chosen.extend(new.into_iter().take(least.saturating_sub(there.len())));
    }
    chosen
}

/// Adds calls of an answer with places that are not there yet; 1 and 2 have none.
fn add_refusals(chosen: &mut BTreeSet<usize>, pool: &[Candidate], number: u64) {
    let of_number = |place: &usize| pool[*place].record.laid_out.number == number;
    let mut places: BTreeSet<u64> =
        chosen.iter().filter(|place| of_number(place)).map(|place| pool[*place].record.laid_out.second).collect();
    let mut count = chosen.iter().filter(|place| of_number(place)).count();
    for place in (0..pool.len()).filter(of_number) {
        let new = places.insert(pool[place].record.laid_out.second) || [1, 2].contains(&number);
        if count < REFUSALS && new && chosen.insert(place) {
            count += 1;
        }
    }
}
