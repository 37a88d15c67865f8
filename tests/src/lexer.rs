//! Bytes to tokens, and the refusals 1, 2 and 3.

use crate::Refusal;

pub const MOST_BYTES: usize = 2048;
pub const LONGEST_NAME: usize = 16;
pub const GREATEST_NUMBER: u64 = 2_147_483_647;

const RESERVED: [&[u8]; 9] =
    [b"int", b"free", b"if", b"else", b"while", b"return", b"fail", b"true", b"false"];
const DOUBLE_MARKS: [&[u8]; 7] = [b"<=", b">=", b"==", b"!=", b"&&", b"||", b".."];
const SINGLE_MARKS: &[u8] = b"(){};,=<>+-*";

#[derive(Clone, Copy, PartialEq, Eq, Debug)]
pub enum Kind {
    Name,
    /// A number with its value; one too large keeps some too large value.
    Number(u64),
    /// A reserved word or a mark: its bytes say which.
    Fixed,
    /// The end of the text, a token at the text's length.
    End,
}

#[derive(Clone, Copy, Debug)]
pub struct Token<'t> {
    pub kind: Kind,
    pub place: usize,
    pub bytes: &'t [u8],
}

/// The tokens of a text with the end as the last, or the refusal 1, 2 or 3.
pub fn tokens(text: &[u8]) -> Result<Vec<Token<'_>>, Refusal> {
    if text.len() > MOST_BYTES {
        return Err((1, MOST_BYTES));
    }
    let tokens = split(text).map_err(|place| (2, place))?;
    for token in &tokens {
        let too_large = match token.kind {
            Kind::Name => token.bytes.len() > LONGEST_NAME,
            Kind::Number(value) => value > GREATEST_NUMBER,
            Kind::Fixed | Kind::End => false,
        };
        if too_large {
            return Err((3, token.place));
        }
    }
    Ok(tokens)
}

/// The tokens by longest match, or the place of the first byte that begins none.
pub fn split(text: &[u8]) -> Result<Vec<Token<'_>>, usize> {
    let mut tokens = Vec::new();
    let mut place = 0;
    while place < text.len() {
        let rest = &text[place..];
        if matches!(rest[0], b' ' | b'\t' | b'\n' | b'\r') {
            place += 1;
            continue;
        }
        let (kind, length) = first_token(rest).ok_or(place)?;
        tokens.push(Token { kind, place, bytes: &rest[..length] });
        place += length;
    }
    tokens.push(Token { kind: Kind::End, place: text.len(), bytes: b"" });
    Ok(tokens)
}

fn first_token(rest: &[u8]) -> Option<(Kind, usize)> {
    if rest[0].is_ascii_alphabetic() {
        let length = count(rest, |b| b.is_ascii_alphanumeric() || b == b'_');
        let reserved = RESERVED.contains(&&rest[..length]);
        return Some((if reserved { Kind::Fixed } else { Kind::Name }, length));
    }
    if rest[0].is_ascii_digit() {
        let groups = count(rest, |b| b.is_ascii_digit() || b == b'_');
        let after = rest[..groups].iter().rev().take_while(|b| **b == b'_').count();
        let length = groups - after;
        return Some((Kind::Number(value(&rest[..length])), length));
    }
    if rest.len() >= 2 && DOUBLE_MARKS.contains(&&rest[..2]) {
        return Some((Kind::Fixed, 2));
    }
    if SINGLE_MARKS.contains(&rest[0]) {
        return Some((Kind::Fixed, 1));
    }
    None
}

/// The value of a number, which underscores do not change.
fn value(number: &[u8]) -> u64 {
    number.iter().filter(|b| **b != b'_').fold(0, |value: u64, digit| {
        value.saturating_mul(10).saturating_add(u64::from(digit - b'0'))
    })
}

fn count(bytes: &[u8], belongs: impl Fn(u8) -> bool) -> usize {
    bytes.iter().take_while(|b| belongs(**b)).count()
}
