//! The stored inputs and outputs of the lister's programs, against the
//! reference.

use reference::{house, lister, with_room};
use std::fs;

fn stored(program: &str, file: &str) -> Vec<u8> {
    let folder = env!("CARGO_MANIFEST_DIR");
    fs::read(format!("{folder}/../crates/{program}/{file}")).expect("the file can be read")
}

fn printed(input: &[u8]) -> String {
    with_room(|| lister::print(input))
}

fn text(bytes: Vec<u8>) -> String {
    String::from_utf8(bytes).expect("the output is text")
}

#[test]
fn the_sample() {
    assert_eq!(printed(&stored("lister", "stdin")), text(stored("lister", "stdout")));
}

#[test]
fn the_sheet() {
    let sheet = with_room(|| lister::post(&stored("sheet", "stdin")));
    assert_eq!(text(sheet), text(stored("sheet", "stdout")));
}

#[test]
fn the_checked_rule() {
    let checked = with_room(|| lister::checked(&stored("rule_check", "stdin")));
    assert_eq!(checked, text(stored("rule_check", "stdout")));
}

#[test]
fn the_rule_in_house_style() {
    let styled = with_room(|| house::shown(&stored("house", "stdin")));
    assert_eq!(styled, text(stored("house", "stdout")));
}

/// The stored inputs of a program; a byte 1 stands after each.
fn inputs(program: &str) -> Vec<Vec<u8>> {
    let inputs = stored(program, "stdin");
    let (last, inputs) = inputs.split_last().expect("there are inputs");
    assert_eq!(*last, 1);
    inputs.split(|byte| *byte == 1).map(<[u8]>::to_vec).collect()
}

#[test]
fn the_program_cases() {
    // A byte 2 stands before an input that is printed on pages.
    let output = |input: &Vec<u8>| match &input[..] {
        [2, input @ ..] => with_room(|| text(lister::post(input))),
        input => printed(input),
    };
    let outputs: String = inputs("program_cases").iter().map(output).collect();
    assert_eq!(outputs, text(stored("program_cases", "stdout")));
}

#[test]
fn the_check_cases() {
    let outputs = text(stored("check_cases", "stdout"));
    let inputs = inputs("check_cases");
    assert_eq!(outputs.lines().count(), inputs.len());
    for (input, output) in inputs.iter().zip(outputs.lines()) {
        let checked = with_room(|| lister::checked(input));
        assert_eq!(checked, format!("{output}\n"), "{}", String::from_utf8_lossy(input));
    }
}
