//! The example that turns the source's tree into a tape gives the layouts of the source's `format`.

#[allow(dead_code)]
#[path = "../examples/from_tree.rs"]
mod example;

use oracle::answers::accepted_tree;
use oracle::cases::{call, Class};
use oracle::source::{at_hand_for, format_tree, tree};
use qdesk::{Case, Settings};

#[test]
fn layouts_from_the_sources_trees() {
    if !at_hand_for("layouts_from_the_sources_trees") {
        return;
    }
    for index in 0..500 {
        let case = call(1, Class::Parser, index);
        let tree = tree(&accepted_tree(&case).expect("a good call"));
        let text = std::str::from_utf8(&case.text).expect("ASCII");
        let settings = Settings { indent_width: case.width, case: Case(case.case) };
        let expected = format_tree(&tree, case.width as usize, case.case == 1, text);
        assert_eq!(example::laid_out(text, &tree, settings), Ok(expected), "index {index}");
    }
}
