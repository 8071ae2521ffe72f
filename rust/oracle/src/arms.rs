//! The arms of the source's dispatch and routines by name: which of them a call takes, and all that there are.

use crate::answers::{accepted_tree, answer, Case};
use crate::coverage::{sort, NODE_KINDS, WORDS};
use crate::kinds::{self, TOKENS};
use crate::masking::is_copied;
use crate::source;
use crate::tape::{Child, Node};
use crate::text::accepted;
use std::collections::BTreeSet;

/// What may come before a child in its node, white space and comments aside; the local variables of a routine tell these apart.
const BEFORE: [&str; 7] = ["nothing", "a node", "a comma", "a word", "a quoted name", "an opening", "another token"];

/// What a child may be to a routine that looks at what came before it.
const CHILDREN: [&str; 6] = ["node asked for", "other node", "word", "round bracket", "closing", "other token"];

const NO_SPACE_BEFORE: [&str; 7] =
    ["Comma", "Semicolon", "ClosingRoundBracket", "ClosingSquareBracket", "ClosingCurlyBrace", "Dot", "DoubleColon"];

const NO_SPACE_AFTER: [&str; 7] =
    ["OpeningRoundBracket", "OpeningSquareBracket", "OpeningCurlyBrace", "Dot", "DoubleColon", "At", "DoubleAt"];

const WHITE_SPACE: [&str; 3] =
    ["white space of no newline", "white space of one newline", "white space of several newlines"];

const COMMENTS: [&str; 4] =
    ["line comment", "other comment", "line comment after a newline", "other comment after a newline"];

/// What a clause with a list is made of: its list's items, or its own.
const ITEMS: [&str; 5] = ["no item", "one item", "several items", "list of one item or none", "list of several items"];

/// A node that shows, by the indent on its own line, what level the routine before it left.
const THEN: &str = "then a node on a new line";

const LIST_CLAUSES: [(&str, &str); 2] =
    [("format_group_by_clause", "GroupByList"), ("format_order_by_clause", "OrderByList")];

/// What is copied as typed, and what the copy is.
const COPIES: [&str; 7] = [
    "Error node",
    "File with an Error node",
    "other node with an Error node",
    "start above end",
    "empty",
    "ends in a newline",
    "ends in another byte",
];

const GOES_ON: &str = "not copied: QueryList with an Error node";

/// Routines that no tree tells apart: the first two are written alike, the others come to the same.
const ALIKE: [[&str; 2]; 2] =
    [["format_limit_by_clause", "format_join_clause"], ["format_inline", "format_simple_clause"]];

/// The names of all arms.
pub fn every() -> BTreeSet<String> {
    let mut names: BTreeSet<String> = COPIES.iter().map(|copy| copied(copy)).collect();
    names.insert(GOES_ON.to_string());
    names.extend(carried().flat_map(|kind| others(kind).map(move |other| dispatch_arm(kind, other))));
    names.extend(representatives().into_iter().flat_map(|kind| of_routine(kinds::routine(kind))));
    names
}

/// The kinds that are carried and go to a routine.
fn carried() -> impl Iterator<Item = u16> {
    let error = kinds::number("Error");
    (0..kinds::COUNT).filter(move |kind| kinds::is_carried(*kind) && *kind != error)
}

/// A kind of each routine.
pub fn representatives() -> Vec<u16> {
    let mut kinds: Vec<u16> = carried().collect();
    kinds.sort_by_key(|kind| kinds::routine(*kind));
    kinds.dedup_by_key(|kind| kinds::routine(*kind));
    kinds
}

/// A kind of each routine that differs from this kind's.
fn others(kind: u16) -> impl Iterator<Item = u16> {
    let own = kinds::routine(kind);
    let alike = move |other: &str| own == other || ALIKE.iter().any(|two| two.contains(&own) && two.contains(&other));
    representatives().into_iter().filter(move |other| !alike(kinds::routine(*other)))
}

/// The arm of the dispatch that sends a kind to its routine and not to another.
fn dispatch_arm(kind: u16, other: u16) -> String {
    format!("dispatch: {} not to {}", kinds::name(kind), kinds::routine(other))
}

fn of_routine(routine: &str) -> Vec<String> {
    let sorts = TOKENS.iter().chain(&NODE_KINDS).chain(&["other token", "other node"]).map(|sort| sort.to_string());
    let words = WORDS.iter().map(|word| format!("BareWord {word}"));
    let ordered = CHILDREN.iter().flat_map(|child| BEFORE.iter().map(move |before| format!("{child} after {before}")));
    let closing = NO_SPACE_BEFORE.iter().map(|kind| format!("{kind} after another token"));
    let opening = NO_SPACE_AFTER.iter().map(|kind| format!("other token after {kind}"));
    let ordered = ordered.chain(closing).chain(opening);
    let skipped = WHITE_SPACE.iter().chain(&COMMENTS).map(|sort| sort.to_string());
    let items = if list_of(routine).is_some() { &ITEMS[..] } else { &[] };
    let items = items.iter().flat_map(|items| [items.to_string(), format!("{items}, {THEN}")]);
    let arms = sorts.chain(words).chain(ordered).chain(skipped).chain(items).chain([THEN.to_string()]);
    arms.map(|arm| format!("{routine}: {arm}")).collect()
}

/// The names of the arms that a call takes and shows; a refused one shows none, 13 only a length.
pub fn taken(case: &Case) -> BTreeSet<String> {
    let mut names = BTreeSet::new();
    if let (Ok(root), 0) = (accepted_tree(case), answer(case).laid_out.number) {
        add(&root, &case.text, &mut names);
        add_dispatch(root, case, &mut names);
    }
    names
}

/// The routines that would have laid out the root otherwise than its own did.
fn add_dispatch(mut root: Node, case: &Case, names: &mut BTreeSet<String>) {
    if has_error_child(&root) || is_copied(&root) {
        return;
    }
    let text = accepted(&case.text);
    let layout = |root: &Node| source::format(root, case.width as usize, case.case == 1, text);
    let (kind, own) = (root.kind, layout(&root));
    for other in others(kind) {
        root.kind = other;
        if layout(&root) != own {
            names.insert(dispatch_arm(kind, other));
        }
    }
}

fn has_error_child(node: &Node) -> bool {
    nodes(node).any(|child| child.kind == kinds::number("Error"))
}

fn add(node: &Node, text: &[u8], names: &mut BTreeSet<String>) {
    if is_copied(node) {
        names.extend(copies(node, text));
        return;
    }
    let routine = kinds::routine(node.kind);
    let mut take = |arm: &str| _ = names.insert(format!("{routine}: {arm}"));
    let mut before = None;
    let mut newline = false;
    for child in &node.children {
        take(&sort(child, text));
        if let Some(skipped) = skipped(child, newline, text) {
            take(skipped);
            newline = skipped == WHITE_SPACE[1] || skipped == WHITE_SPACE[2];
        } else {
            orders(before, child).iter().for_each(|order| take(order));
            before = Some(child);
            newline = false;
        }
    }
    if let Some(items) = items(node) {
        take(items);
    }
    if has_error_child(node) {
        names.insert(GOES_ON.to_string());
    }
    if ["File", "QueryList"].contains(&kinds::name(node.kind)) {
        let shown = nodes(node).count().saturating_sub(1);
        nodes(node).take(shown).filter(|child| !is_copied(child)).for_each(|child| names.extend(before_a_node(child)));
    }
    nodes(node).for_each(|child| add(child, text, names));
}

fn before_a_node(node: &Node) -> Vec<String> {
    let routine = kinds::routine(node.kind);
    let with_items = items(node).map(|items| format!("{routine}: {items}, {THEN}"));
    with_items.into_iter().chain([format!("{routine}: {THEN}")]).collect()
}

fn nodes(node: &Node) -> impl Iterator<Item = &Node> {
    node.children.iter().filter_map(|child| match child {
        Child::Node(node) => Some(node),
        Child::Token(_) => None,
    })
}

fn copies(node: &Node, text: &[u8]) -> [String; 2] {
    let which = match kinds::name(node.kind) {
        "Error" => COPIES[0],
        "File" => COPIES[1],
        _ => COPIES[2],
    };
    let copy = match text.get(node.start as usize..node.end as usize) {
        None => COPIES[3],
        Some([]) => COPIES[4],
        Some([.., b'\n']) => COPIES[5],
        Some(_) => COPIES[6],
    };
    [copied(which), copied(copy)]
}

fn copied(copy: &str) -> String {
    format!("copied: {copy}")
}

/// The name of white space or of a comment, which comes after a newline or not.
fn skipped(child: &Child, newline: bool, text: &[u8]) -> Option<&'static str> {
    let Child::Token(token) = child else { return None };
    let text = &text[token.start as usize..token.end as usize];
    match kinds::name(token.kind) {
        "Whitespace" => Some(WHITE_SPACE[text.iter().filter(|byte| **byte == b'\n').count().min(2)]),
        "Comment" => Some(COMMENTS[usize::from(!text.starts_with(b"--")) + 2 * usize::from(newline)]),
        _ => None,
    }
}

fn class(child: &Child) -> &'static str {
    match (child, token_name(child)) {
        (Child::Node(node), _) if NODE_KINDS.contains(&kinds::name(node.kind)) => CHILDREN[0],
        (Child::Node(_), _) => CHILDREN[1],
        (_, "BareWord") => CHILDREN[2],
        (_, "OpeningRoundBracket") => CHILDREN[3],
        (_, name) if NO_SPACE_BEFORE.contains(&name) => CHILDREN[4],
        _ => CHILDREN[5],
    }
}

/// A child by what came before it; by its kind or that one's, where a space may be left out for it.
fn orders(before: Option<&Child>, child: &Child) -> Vec<String> {
    let (before, kind_before) = before.map_or((BEFORE[0], ""), |before| (as_before(before), token_name(before)));
    let (child, kind) = (class(child), token_name(child));
    let closing = (before == BEFORE[6] && child == CHILDREN[4]).then(|| format!("{kind} after {before}"));
    let opening = (before == BEFORE[5] && child == CHILDREN[5]).then(|| format!("{child} after {kind_before}"));
    [Some(format!("{child} after {before}")), closing, opening].into_iter().flatten().collect()
}

fn token_name(child: &Child) -> &'static str {
    match child {
        Child::Token(token) => kinds::name(token.kind),
        Child::Node(_) => "",
    }
}

fn as_before(child: &Child) -> &'static str {
    match (child, token_name(child)) {
        (Child::Node(_), _) => BEFORE[1],
        (_, "Comma") => BEFORE[2],
        (_, "BareWord") => BEFORE[3],
        (_, "QuotedIdentifier") => BEFORE[4],
        (_, name) if NO_SPACE_AFTER.contains(&name) => BEFORE[5],
        _ => BEFORE[6],
    }
}

/// The kind of list that a routine asks for before it begins.
fn list_of(routine: &str) -> Option<&'static str> {
    LIST_CLAUSES.iter().find(|(clause, _)| *clause == routine).map(|(_, list)| *list)
}

/// The items of a clause with a list.
fn items(node: &Node) -> Option<&'static str> {
    let list = list_of(kinds::routine(node.kind))?;
    Some(match (nodes(node).find(|child| kinds::name(child.kind) == list), nodes(node).count()) {
        (None, count) => ITEMS[count.min(2)],
        (Some(list), _) => ITEMS[3 + usize::from(nodes(list).count() > 1)],
    })
}
