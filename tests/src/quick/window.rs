//! Windows and ranges: what an operation makes of two, what two decide, and how
//! one narrows.

use super::code::Relation;
use crate::parser::Operation;

#[derive(Clone, Copy, PartialEq, Eq, Debug)]
pub struct Window {
    pub low: i32,
    pub high: i32,
}

/// The numbers of 32 bits.
pub const ALL: Window = Window { low: i32::MIN, high: i32::MAX };

impl Window {
    /// The least and greatest exact result; all of 32 bits where that leaves
    /// them.
    pub fn operated(self, operation: Operation, other: Window) -> Window {
        let [low, high] = [i64::from(self.low), i64::from(self.high)];
        let [other_low, other_high] = [i64::from(other.low), i64::from(other.high)];
        let (least, greatest) = match operation {
            Operation::Add => (low + other_low, high + other_high),
            Operation::Subtract => (low - other_high, high - other_low),
            Operation::Multiply => {
                let at_low = [low * other_low, low * other_high];
                let at_high = [high * other_low, high * other_high];
                let least = at_low[0].min(at_low[1]).min(at_high[0]).min(at_high[1]);
                (least, at_low[0].max(at_low[1]).max(at_high[0]).max(at_high[1]))
            }
        };
        match (i32::try_from(least), i32::try_from(greatest)) {
            (Ok(low), Ok(high)) => Window { low, high },
            _ => ALL,
        }
    }

    /// The outcome if the two ranges decide it: of the three ways in which two
    /// numbers can stand, those that are left are all in the relation or none.
    pub fn decide(self, holds: Relation, other: Window) -> Option<bool> {
        let less = u8::from(self.low < other.high);
        let equal = u8::from(self.low <= other.high && other.low <= self.high);
        let greater = u8::from(self.high > other.low);
        let ways = less | equal << 1 | greater << 2;
        match holds.0 & ways {
            0 => Some(false),
            left if left == ways => Some(true),
            _ => None,
        }
    }

    /// Narrowed by: what it holds stands so to the number, which some values
    /// of the window do and others don't.
    pub fn narrowed(self, holds: Relation, number: i32) -> Window {
        let Window { mut low, mut high } = self;
        if !holds.of(i64::from(number) - 1, i64::from(number)) {
            low = low.max(number);
        }
        if !holds.of(i64::from(number) + 1, i64::from(number)) {
            high = high.min(number);
        }
        if !holds.of(number, number) {
            if low == number {
                low += 1;
            } else if high == number {
                high -= 1;
            }
        }
        Window { low, high }
    }
}
