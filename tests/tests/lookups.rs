//! How many names the lookups of a text compare (slip 6): by hand on three
//! texts, and on those of the note of slip 6 as it has them.

use reference::examples::{declarations, short_names};
use reference::rule_files::folder;
use reference::rules::{lookups, newest_back, Compare};

#[test]
fn by_hand() {
    let counts = |text: &str| lookups(text.as_bytes(), newest_back).expect("kept grammar");
    let nested = "int f(int a, int b) { int c; a = 1; { int d; d = c; } return x; }";
    assert_eq!(counts(nested), [0, 1, 2, 3, 3, 1, 2, 3]);
    let arms =
        "int f(int a) { if (a < 1) int b; else { int c; int b; } return a; } int g() { return a; }";
    assert_eq!(counts(arms), [0, 1, 1, 1, 2, 1, 0]);
    assert_eq!(counts("int main() { int x; int y; int x; x = y; }"), [0, 1, 2, 1, 2]);
}

/// The way before slip 6: block by block from the innermost, and within a block
/// from the earliest on.
fn earliest_in_block(blocks: &[Vec<String>], name: &str) -> (usize, bool) {
    let seen: Vec<&String> = blocks.iter().rev().flatten().collect();
    let hit = seen.iter().position(|other| *other == name);
    (hit.map_or(seen.len(), |place| place + 1), hit.is_some())
}

/// `blocks` nested blocks with `each` declarations, then `uses` uses of the
/// declaration `used`, a `return` among them.
fn nested(blocks: usize, each: usize, used: usize, uses: usize) -> String {
    let names: Vec<String> = short_names().take(blocks * each).collect();
    let block = |names: &[String]| names.iter().map(|name| format!("int {name};")).collect();
    let opened: Vec<String> = names.chunks(each).map(block).collect();
    let used = &names[used];
    let assigned = format!("{used}=0;").repeat(uses - 1);
    let closed = "}".repeat(blocks);
    format!("int main(){{{}{assigned}return {used};{closed}", opened.join("{"))
}

fn sixteen_functions() -> String {
    let body = format!("{{{}p=1;return p;}}", declarations(16));
    let functions: String = (0..15).map(|n| format!("int f{n}(){body}")).collect();
    format!("{functions}int main(){body}")
}

fn rule(name: &str) -> String {
    std::fs::read_to_string(folder().join(format!("{name}.muli"))).expect("a rule")
}

#[test]
fn as_the_note_has_them() {
    let none_used = format!("int main(){{{}fail;}}", declarations(297));
    let texts = [
        (nested(1, 16, 15, 483), [499, 7_848, 603]),
        (nested(1, 150, 149, 206), [356, 42_075, 11_381]),
        (nested(3, 5, 14, 484), [499, 2_525, 589]),
        (nested(23, 6, 137, 214), [352, 10_737, 9_667]),
        (nested(23, 1, 22, 462), [485, 715, 715]),
        (nested(23, 1, 0, 462), [485, 10_879, 10_879]),
        (sixteen_functions(), [288, 2_432, 1_952]),
        (none_used, [297, 43_956, 43_956]),
        (nested(1, 16, 0, 483), [499, 603, 7_848]),
        (rule("balance"), [22, 86, 56]),
        (rule("turns"), [22, 70, 52]),
        (rule("drying"), [41, 82, 75]),
        (rule("shift"), [31, 56, 61]),
    ];
    for (text, figures) in texts {
        assert!(text.len() <= 2_048, "{} bytes: {text}", text.len());
        let all = |compare: Compare| lookups(text.as_bytes(), compare).expect("kept grammar");
        let sum = |compare: Compare| all(compare).iter().sum::<usize>();
        assert_eq!(
            [all(newest_back).len(), sum(earliest_in_block), sum(newest_back)],
            figures,
            "{text}"
        );
    }
}
