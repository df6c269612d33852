//! Tables: each error with its line and column, the way there and back, and the tables of the samples.

use std::fs::{read, read_to_string};
use std::path::PathBuf;
use twolsken::{read_model, Table};

/// The error's text of a table that is wrong.
fn error(text: &str) -> String {
    text.parse::<Table>().expect_err(text).to_string()
}

/// A table with the given lines after D and the labels.
fn with(lines: &str) -> String {
    format!("D 4\nlabels open lost\n{lines}")
}

#[test]
fn an_error_names_line_and_column() {
    for (text, expected) in [
        (
            "stat s: s 1",
            "line 1, column 1: a line begins with `version`, `D`, `labels` or `state`, not with `stat`",
        ),
        ("  D ten", "line 1, column 5: D is a number from 1 to 65535, not `ten`"),
        ("D", "line 1, column 2: D is a number from 1 to 65535, not the end of the line"),
        ("D 0", "line 1, column 3: D is a number from 1 to 65535, not `0`"),
        ("D 65536", "line 1, column 3: D is a number from 1 to 65535, not `65536`"),
        ("D +4", "line 1, column 3: D is a number from 1 to 65535, not `+4`"),
        ("D 4 5", "line 1, column 5: nothing follows the number of D in its line"),
        ("D 4\n\nD 4", "line 3, column 1: D was given before"),
        ("labels a\nlabels b", "line 2, column 1: the labels were given before"),
        ("labels a b a", "line 1, column 12: the label `a` is there twice"),
        ("labels b a", "line 1, column 8: a sentence calls this label `a`: `b` would mislead"),
        ("labels a open p", "line 1, column 15: a sentence calls this label `c`: `p` would mislead"),
        (
            "labels",
            "line 1, column 7: a label's name is expected here, a letter and then letters, digits, `-` or \
             `_`; not the end of the line",
        ),
        (
            "labels a, b",
            "line 1, column 9: a label's name is expected here, a letter and then letters, digits, `-` or \
             `_`; not `,`",
        ),
        ("labels a b c d e f g h i j k l m n o p q", "line 1, column 40: there are at most 16 labels"),
        (
            "state 7: x 1",
            "line 1, column 7: a state's name is expected here, a letter and then letters, digits, `-` or \
             `_`; not `7`",
        ),
        ("state é: x 1", "line 1, column 7: a state's name is expected here, a letter and then letters, digits, `-` or `_`; not `é`"),
        ("state s s 4", "line 1, column 9: a colon is expected here, and then where the state goes; not `s`"),
        (
            "state s (a: s 4",
            "line 1, column 11: a label's name or `)` is expected here, a letter and then letters, digits, \
             `-` or `_`; not `:`",
        ),
        (
            "state s:",
            "line 1, column 9: the name of a state that it goes to is expected here, a letter and then \
             letters, digits, `-` or `_`; not the end of the line",
        ),
        ("state s: t", "line 1, column 11: a weight is a number from 0 to 65535, not the end of the line"),
        ("state s: t 70000", "line 1, column 12: a weight is a number from 0 to 65535, not `70000`"),
        ("state s: t 2 u 2", "line 1, column 14: a comma is expected between two states that it goes to"),
        ("", "line 1, column 1: the table ends, and no line has given D"),
        ("D 4\n", "line 2, column 1: the table ends, and no line has given the labels"),
        ("D 4\nlabels a", "line 3, column 1: the table ends, and no line has given a state"),
    ] {
        assert_eq!(error(text), expected, "{text}");
    }
}

/// The error of a state's line that ends with its colon, in a table of version 0.
const NOWHERE: &str = "the name of a state that it goes to is expected here, a letter and then letters, \
                       digits, `-` or `_`; not the end of the line";

#[test]
fn an_error_of_the_version_names_line_and_column() {
    for (text, expected) in [
        ("version", "line 1, column 8: the version is a number from 0 to 1, not the end of the line"),
        ("version 2", "line 1, column 9: the version is a number from 0 to 1, not `2`"),
        ("D 4\n version one", "line 2, column 10: the version is a number from 0 to 1, not `one`"),
        ("version -1", "line 1, column 9: the version is a number from 0 to 1, not `-1`"),
        ("version: 1", "line 1, column 8: the version is a number from 0 to 1, not `:`"),
        ("version 1 1", "line 1, column 11: nothing follows the number of the version in its line"),
        ("version 1\nD 4\nversion 1", "line 3, column 1: the version was given before"),
        ("version 0\nversion 1", "line 2, column 1: the version was given before"),
        ("version 1\nD 4\nlabels a", "line 4, column 1: the table ends, and no line has given a state"),
        // the version is read first: what is wrong with it is told before what is wrong above it
        ("D 0\nversion 2", "line 2, column 9: the version is a number from 0 to 1, not `2`"),
    ] {
        assert_eq!(error(text), expected, "{text}");
    }
}

#[test]
fn a_state_that_goes_nowhere_needs_version_1() {
    for (lines, line) in [
        ("state s (lost):", 3),
        ("version 0\nstate s (lost):", 4),
        ("state s (lost):\nversion 0", 3),
        ("state t: t 4\nstate s (lost): # no more", 4),
    ] {
        assert_eq!(error(&with(lines)), format!("line {line}, column 16: {NOWHERE}"), "{lines}");
    }
    for lines in [
        "version 1\nstate s (lost):",
        "state s (lost):\nversion 1",
        "state s (lost) : # no more\n\n  version 1 # with empty rows",
        "version 1\nstate s (lost): s 0",
    ] {
        let table: Table = with(lines).parse().expect(lines);
        assert_eq!((table.model.version, table.model.n, table.model.masks[0]), (1, 1, 2), "{lines}");
        assert_eq!(table.model.weights, [[0; 32]; 32], "{lines}");
    }
}

#[test]
fn version_1_allows_no_more_than_an_empty_row() {
    for (lines, expected) in [
        ("state s: s 3", "line 3, column 7: the weights of `s` add up to 3, and D is 4"),
        ("state s: s 5", "line 3, column 7: the weights of `s` add up to 5, and D is 4"),
        ("state s: s", "line 3, column 11: a weight is a number from 0 to 65535, not the end of the line"),
        (
            "state s",
            "line 3, column 8: a colon is expected here, and then where the state goes; not the end of the \
             line",
        ),
        ("state s: t 0", "line 3, column 10: no state has the name `t`"),
    ] {
        assert_eq!(error(&with(&format!("{lines}\nversion 1"))), expected, "{lines}");
    }
    let zero = with("state s: s 0");
    assert_eq!(error(&zero), "line 3, column 7: the weights of `s` add up to 0, and D is 4");
}

#[test]
fn an_error_between_lines_names_the_later_one() {
    for (lines, expected) in [
        ("state s: s 4\nstate s: s 4", "line 4, column 7: the state `s` is in line 3 already"),
        ("state s (shut): s 4", "line 3, column 10: no label has the name `shut`"),
        ("state s: s 3, t 1", "line 3, column 15: no state has the name `t`"),
        ("state s: s 3, s 1", "line 3, column 15: `s` is there twice: add the weights up"),
        ("state s: s 3 # t 1", "line 3, column 7: the weights of `s` add up to 3, and D is 4"),
        (
            "state s: t 1, s 65535\nstate t: t 4",
            "line 3, column 7: the weights of `s` add up to 65536, and D is 4",
        ),
    ] {
        assert_eq!(error(&with(lines)), expected, "{lines}");
    }
}

#[test]
fn states_on_both_sides_of_the_most() {
    let states = |count: usize| (0..count).map(|s| format!("state s{s}: s0 4\n")).collect::<String>();
    assert_eq!(with(&states(32)).parse::<Table>().expect("32 states").model.n, 32);
    assert_eq!(error(&with(&states(33))), "line 35, column 7: there are at most 32 states");
}

#[test]
fn blanks_comments_and_the_order_of_lines_do_not_matter() {
    let plain: Table = with("state s (open lost): t 4\nstate t: s 1, t 3").parse().expect("a table");
    let other =
        "\u{feff}# a comment\r\nstate\ts(lost open):t 4#x\n\n state t : s 1 ,t 3,s-x 0\nstate s-x: s-x 4\n\
                 labels open lost\nD 4";
    let other: Table = other.parse().expect("the same with one state more");
    assert_eq!((plain.model.n, other.model.n), (2, 3));
    assert_eq!(plain.model.masks[..2], other.model.masks[..2]);
    assert_eq!(plain.model.weights[..2], other.model.weights[..2]);
    assert_eq!((plain.labels, other.states[2].as_str()), (other.labels, "s-x"));
}

/// The folders of the samples.
fn samples() -> Vec<PathBuf> {
    let root = PathBuf::from(env!("CARGO_MANIFEST_DIR")).join("../samples");
    let list = root.read_dir().expect("the samples").map(|entry| entry.expect("a sample").path());
    let list: Vec<PathBuf> = list.collect();
    assert!(list.len() >= 6, "{list:?}");
    list
}

#[test]
fn each_sample_has_the_file_of_its_table() {
    for sample in samples() {
        let table: Table = read_to_string(sample.join("table.txt"))
            .expect("a table")
            .parse()
            .unwrap_or_else(|error| panic!("{}: {error}", sample.display()));
        let file = read(sample.join("model.blk")).expect("a model file");
        assert_eq!(table.model.to_file().expect("a model"), file, "{}", sample.display());
    }
}

#[test]
fn a_table_that_is_shown_gives_the_model_again() {
    for sample in samples() {
        let file = read(sample.join("model.blk")).expect("a model file");
        let shown = Table::of(read_model(&file).expect("a model"));
        assert_eq!(shown.to_string().parse::<Table>().expect("a table"), shown, "{}", sample.display());
    }
}

/// A version 1 table begins with its version, and an empty row ends with the colon; a version 0 table has neither.
#[test]
fn a_table_is_shown_with_its_version() {
    let first = "D 4\nlabels a\nstate s0 (a): s0 3, s1 1\n";
    for shown in [
        format!("{first}state s1:     s1 4\n"),
        format!("version 1\n{first}state s1:     s1 4\n"),
        format!("version 1\n{first}state s1:\n"),
    ] {
        let table: Table = shown.parse().expect("a table");
        assert_eq!(table.to_string(), shown);
        assert_eq!(Table::of(table.model.clone()), table);
    }
    let named = "version 0\nD 4\nlabels a\nstate s0: s0 4\n";
    let table: Table = named.parse().expect("a table");
    assert_eq!(table.to_string(), named.replace("version 0\n", ""));
}
