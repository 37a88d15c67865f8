//! The program around list: the job line, then the text; what is printed.

use crate::rules::{remarks, LEAST_OFFSETS};
use crate::search::{list, Ending, Job, Listing, LEAST_SCRATCH, ROW_WORDS};
use crate::sheet::posted;
use crate::Refusal;
use std::fmt::Write;

/// What the program prints for this standard input.
pub fn print(input: &[u8]) -> String {
    shown(&listed(input))
}

/// What the program `sheet` prints for this standard input.
pub fn post(input: &[u8]) -> Vec<u8> {
    posted(&listed(input))
}

fn listed(input: &[u8]) -> Result<Listing, Refusal> {
    let (job, text) = read(input)?;
    list(text, &job)
}

/// The job of this standard input, and its text.
pub fn read(input: &[u8]) -> Result<(Job, &[u8]), Refusal> {
    let end = input.iter().position(|b| *b == b'\n').ok_or((16, 0))?;
    let (low, high, steps) = job_line(&input[..end]).ok_or((16, 0))?;
    let job = Job {
        low,
        high,
        steps,
        skip: 0,
        budget: 1_000_000,
        rows_len: 1_000 * ROW_WORDS,
        scratch_len: LEAST_SCRATCH,
    };
    Ok((job, &input[end + 1..]))
}

/// The lines for what list answered and wrote.
pub fn shown(answer: &Result<Listing, Refusal>) -> String {
    let listing = match answer {
        Ok(listing) => listing,
        Err((number, place)) => return format!("refused {number} at {place}\n"),
    };
    let mut lines = String::new();
    for row in &listing.rows {
        write!(lines, "{} :", row[0]).expect("a string takes all");
        for value in &row[2..2 + row[1] as usize] {
            write!(lines, " {value}").expect("a string takes all");
        }
        lines.push('\n');
    }
    let ending = match listing.ending {
        Ending::Whole => "whole",
        Ending::Cut => "cut",
        Ending::Full => "full",
        Ending::Spent => "spent",
    };
    let rows = listing.rows.len();
    writeln!(lines, "{ending} {rows} rows {} moves", listing.moves).expect("a string takes all");
    lines
}

/// `job LOW HIGH STEPS` without its line end.
fn job_line(line: &[u8]) -> Option<(i32, i32, u32)> {
    let parts: Vec<&[u8]> = line.split(|b| *b == b' ').collect();
    let [b"job", low, high, steps] = parts[..] else { return None };
    let steps = number(steps)?;
    Some((number(low)?, number(high)?, u32::try_from(steps).ok()?))
}

/// One to ten digits, a minus allowed before them, signed 32 bits.
fn number(bytes: &[u8]) -> Option<i32> {
    let (sign, digits) = match bytes {
        [b'-', digits @ ..] => (-1, digits),
        digits => (1, digits),
    };
    if digits.is_empty() || digits.len() > 10 || !digits.iter().all(u8::is_ascii_digit) {
        return None;
    }
    let size = digits.iter().fold(0i64, |n, digit| 10 * n + i64::from(digit - b'0'));
    i32::try_from(sign * size).ok()
}

/// What the program `rule_check` prints for this standard input.
pub fn checked(text: &[u8]) -> String {
    match remarks(text, LEAST_OFFSETS) {
        Ok(offsets) => {
            let offsets: String = offsets.iter().map(|offset| format!(" {offset}")).collect();
            format!("accepted{offsets}\n")
        }
        Err(refusal) => shown(&Err(refusal)),
    }
}
