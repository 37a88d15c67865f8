//! Tokens of numbers with underscores (slip 2), tried on the reference.

use reference::lexer::{tokens, Kind, Token};
use reference::{check, Refusal};

/// The tokens of a text with their bytes, the end left out.
fn split(text: &str) -> Result<Vec<(Kind, &str)>, Refusal> {
    let token = |token: &Token<'_>| {
        let bytes = &text[token.place..token.place + token.bytes.len()];
        (token.kind, bytes)
    };
    tokens(text.as_bytes()).map(|all| all[..all.len() - 1].iter().map(token).collect())
}

fn number(text: &str, value: u64) {
    assert_eq!(split(text), Ok(vec![(Kind::Number(value), text)]), "{text}");
}

#[test]
fn underscores_between_digits_belong() {
    number("1_250_000", 1_250_000);
    number("1__0", 10);
    number("1_2____3", 123);
    number("0_0", 0);
    number("0_12", 12);
    let two = vec![(Kind::Number(12), "1_2"), (Kind::Name, "a_")];
    assert_eq!(split("1_2a_"), Ok(two));
    let negative = vec![(Kind::Fixed, "-"), (Kind::Number(10), "1_0")];
    assert_eq!(split("-1_0"), Ok(negative));
}

#[test]
fn other_underscores_begin_no_token() {
    for (text, place) in [
        ("_", 0),
        ("_1", 0),
        ("12_", 2),
        ("12_;", 2),
        ("12_a", 2),
        ("12__ 3", 2),
        ("1_2_", 3),
        ("1 _2", 2),
        ("-_1", 1),
        ("a+_", 2),
    ] {
        assert_eq!(split(text), Err((2, place)), "{text}");
    }
}

#[test]
fn the_value_decides_what_is_too_large() {
    number("2_147_483_647", 2_147_483_647);
    number("0_000_000_000_000_000_000_000_002_147_483_647", 2_147_483_647);
    assert_eq!(split("2_147_483_648"), Err((3, 0)));
    assert_eq!(split(" -2_1_4_7_4_8_3_6_4_8"), Err((3, 2)));
    assert_eq!(split(&"9_".repeat(40)), Err((2, 79)));
    assert_eq!(split(&format!("{}9", "9_".repeat(40))), Err((3, 0)));
    let long = format!("{}1", "0_".repeat(500));
    number(&long, 1);
}

#[test]
fn texts() {
    assert_eq!(check(b"int main() { return 1_250_000; }"), Ok(()));
    assert_eq!(check(b"int main() { return 12_; }"), Err((2, 22)));
    assert_eq!(check(b"int main() { return 1_2a; }"), Err((4, 23)));
    assert_eq!(check(b"int main() { int a_1; int _a; return 1; }"), Err((2, 26)));
}
