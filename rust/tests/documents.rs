//! The documents and the wrapper say the same.

use felavuti::Refusal;

const ROOT: &str = include_str!("../../README.md");
const OWN: &str = include_str!("../README.md");

/// The first Rust example of a text.
fn example(text: &str) -> &str {
    let (_, rest) = text.split_once("```rust\n").expect("there is an example");
    rest.split_once("```").expect("which ends").0
}

#[test]
fn the_readmes_show_the_example_that_runs() {
    assert_eq!(example(ROOT), example(OWN), "README.md and rust/README.md, whose example runs with those of the documents");
}

#[test]
fn refusals_are_told_in_the_words_of_the_table() {
    for number in (1..=11).chain([19]) {
        let refusal = Refusal::of(number).unwrap().to_string();
        let (_, words) = refusal.split_once("): ").unwrap();
        assert!(ROOT.contains(&format!("| {number} | {words} |")), "README.md has no line for {refusal}");
    }
}
