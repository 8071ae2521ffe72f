//! The kinds: names and numbers as read from the source, and document 01's thirteen that are not carried.

use std::collections::HashMap;
use std::sync::OnceLock;

include!(concat!(env!("OUT_DIR"), "/tables.rs"));

/// How many kinds there are; a larger or equal number is answer 8.
pub const COUNT: u16 = 258;

/// The kind BareWord by number: 16 is looked for where the source is not at hand, too.
pub const BARE_WORD: u16 = 211;

/// The node kinds that are not carried (answer 9), in document 01's order.
pub const NOT_CARRIED: [(&str, u16); 13] = [
    ("InsertStatement", 4),
    ("InsertValuesClause", 131),
    ("CreateStatement", 7),
    ("TableDefinition", 55),
    ("DatabaseDefinition", 56),
    ("ViewDefinition", 57),
    ("MaterializedViewDefinition", 58),
    ("DictionaryDefinition", 59),
    ("ColumnDefinitionList", 79),
    ("EngineClause", 61),
    ("AlterStatement", 8),
    ("SetStatement", 14),
    ("ExplainStatement", 17),
];

/// The token kinds that some routine or token test of the source tells apart, and StringToken and Number.
pub const TOKENS: [&str; 32] = [
    "Whitespace",
    "Comment",
    "BareWord",
    "QuotedIdentifier",
    "OpeningRoundBracket",
    "ClosingRoundBracket",
    "OpeningSquareBracket",
    "ClosingSquareBracket",
    "OpeningCurlyBrace",
    "ClosingCurlyBrace",
    "Comma",
    "Semicolon",
    "Dot",
    "DoubleColon",
    "Colon",
    "At",
    "DoubleAt",
    "Plus",
    "Minus",
    "Star",
    "Slash",
    "Percent",
    "Equals",
    "NotEquals",
    "Less",
    "Greater",
    "LessOrEquals",
    "GreaterOrEquals",
    "Spaceship",
    "Concatenation",
    "StringToken",
    "Number",
];

/// The routine of every kind that the dispatch does not name.
pub const PASSTHROUGH: &str = "format_passthrough";

pub fn is_carried(kind: u16) -> bool {
    NOT_CARRIED.iter().all(|(_, number)| *number != kind)
}

/// The number of the kind of this name.
pub fn number(name: &str) -> u16 {
    static NUMBERS: OnceLock<HashMap<&str, u16>> = OnceLock::new();
    let numbers = NUMBERS.get_or_init(|| NAMES.iter().copied().zip(0..).collect());
    *numbers.get(name).unwrap_or_else(|| panic!("the source has no kind {name}"))
}

/// The name of the kind of this number, for print.
pub fn name(kind: u16) -> &'static str {
    NAMES.get(usize::from(kind)).copied().unwrap_or("?")
}

/// The source's routine for a node of this kind.
pub fn routine(kind: u16) -> &'static str {
    static ROUTINES: OnceLock<Vec<&str>> = OnceLock::new();
    let find = |name: &&str| ROWS.iter().find(|row| row.0 == *name).map_or(PASSTHROUGH, |row| row.1);
    ROUTINES.get_or_init(|| NAMES.iter().map(find).collect())[usize::from(kind)]
}
