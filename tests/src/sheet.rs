//! The sheet for the wall (document 02, slip 3): words set on a grid of blanks.

use crate::lister::shown;
use crate::plans::Row;
use crate::search::{Ending, Listing};
use crate::Refusal;

const LINES: usize = 60;
const COLUMNS: usize = 80;
const ROWS: usize = 58;

/// A page of blanks; lines and columns count from 1.
struct Grid(Vec<[u8; COLUMNS]>);

impl Grid {
    fn set(&mut self, line: usize, first: usize, word: &str) {
        for (column, byte) in (first..).zip(word.bytes()) {
            self.0[line - 1][column - 1] = byte;
        }
    }

    /// The word ends in the column `last`.
    fn set_right(&mut self, line: usize, last: usize, word: &str) {
        self.set(line, last + 1 - word.len(), word);
    }

    fn bytes(&self) -> Vec<u8> {
        self.0.iter().flat_map(|line| line.iter().copied().chain([b'\n'])).collect()
    }
}

/// One page; the ending's word stands on the last one of a sheet only.
pub fn page(number: u32, rows: &[Row], ending: Option<Ending>) -> Vec<u8> {
    assert!(rows.len() <= ROWS, "the rows have place");
    let mut grid = Grid(vec![[b' '; COLUMNS]; LINES]);
    grid.set(1, 1, "plan list");
    if number > 99_999 {
        grid.set(1, 12, &format!("{:05}", number % 100_000));
    } else {
        grid.set_right(1, 16, &number.to_string());
    }
    for (line, row) in (2..).zip(rows) {
        grid.set_right(line, 12, &row[0].to_string());
        for value in 0..row[1].clamp(0, 8) as usize {
            let mut word = row[2 + value].to_string();
            if word.len() > 8 {
                word = "#".repeat(8);
            }
            grid.set_right(line, 12 + 8 * (value + 1), &word);
        }
    }
    if let Some(ending) = ending {
        let word = match ending {
            Ending::Whole => "whole",
            Ending::Cut => "cut",
            Ending::Full => "full",
            Ending::Spent => "spent",
        };
        grid.set(LINES, 1, word);
    }
    grid.bytes()
}

/// All pages of a list.
pub fn sheet(rows: &[Row], ending: Ending) -> Vec<u8> {
    let mut pages: Vec<&[Row]> = rows.chunks(ROWS).collect();
    if pages.is_empty() {
        pages.push(&[]);
    }
    let last = pages.len();
    let with_number = |(number, rows): (usize, &&[Row])| {
        page(number as u32, rows, (number == last).then_some(ending))
    };
    (1..).zip(&pages).flat_map(with_number).collect()
}

/// What the second program prints of list's answer.
pub fn posted(answer: &Result<Listing, Refusal>) -> Vec<u8> {
    match answer {
        Ok(listing) => sheet(&listing.rows, listing.ending),
        refusal => shown(refusal).into_bytes(),
    }
}
