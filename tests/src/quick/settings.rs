//! The settings at a path's end: the numbers that tests rest on are worked,
//! those of the last free number again and again in the inner loop.

use super::path::{worked, Path, Test};
use super::terms::Work;
use crate::run::MOST_FREE;

/// How far the settings of a path were tried.
#[derive(Clone, Copy, PartialEq, Eq, Debug)]
pub enum Tried {
    /// All of them.
    All,
    /// So many as there were moves for.
    Spent,
    /// Up to one that meets the tests, after which it was said to stop.
    Stopped,
}

pub struct Settings<'a> {
    path: &'a mut Path,
    /// The moves that are left.
    pub left: u32,
}

impl<'a> Settings<'a> {
    pub fn new(path: &'a mut Path, left: u32) -> Settings<'a> {
        Settings { path, left }
    }

    /// Tries the settings in their order, the last free number fastest. `met`
    /// is told of each that meets the tests, and says whether to go on.
    pub fn try_all(&mut self, mut met: impl FnMut(&mut [i32]) -> bool) -> Tried {
        let Some(last) = self.path.terms.free.checked_sub(1) else {
            return self.try_one(met);
        };
        let mut changed = 0;
        for number in 0..last {
            self.path.terms.numbers[number] = self.path.terms.windows[number].low;
        }
        loop {
            self.work(changed, last);
            let tried = self.try_last(last, &mut met);
            if tried != Tried::All {
                return tried;
            }
            match self.next(last) {
                Some(number) => changed = number,
                None => return Tried::All,
            }
        }
    }

    /// The one setting of a path without free numbers.
    fn try_one(&mut self, mut met: impl FnMut(&mut [i32]) -> bool) -> Tried {
        if self.left == 0 {
            return Tried::Spent;
        }
        self.left -= 1;
        if met(&mut self.path.terms.numbers) {
            Tried::All
        } else {
            Tried::Stopped
        }
    }

    /// Works the numbers that rest on free numbers before the last, from the
    /// one that has changed on.
    fn work(&mut self, changed: usize, last: usize) {
        let terms = &mut self.path.terms;
        for works in &terms.works[changed..last] {
            work_all(works, &mut terms.numbers);
        }
    }

    /// Tries all values of the last free number.
    fn try_last(&mut self, last: usize, met: &mut impl FnMut(&mut [i32]) -> bool) -> Tried {
        let Path { terms, tests, .. } = &mut *self.path;
        let window = terms.windows[last];
        let count = (i64::from(window.high) - i64::from(window.low) + 1) as u32;
        let most = count.min(self.left);
        let works = terms.list_of(last);
        let values = Values { last, low: window.low, most };
        let mut next = 0;
        loop {
            next = seek(&terms.works[works], tests, &mut terms.numbers, values, next);
            if next == most {
                break;
            }
            next += 1;
            if !met(&mut terms.numbers) {
                self.left -= next;
                return Tried::Stopped;
            }
        }
        self.left -= most;
        if most < count {
            Tried::Spent
        } else {
            Tried::All
        }
    }

    /// Moves the free numbers before the last; the first one that has changed.
    fn next(&mut self, last: usize) -> Option<usize> {
        let terms = &mut self.path.terms;
        for number in (0..last).rev() {
            if terms.numbers[number] < terms.windows[number].high {
                terms.numbers[number] += 1;
                return Some(number);
            }
            terms.numbers[number] = terms.windows[number].low;
        }
        None
    }
}

/// Values of the last free number: so many from the lowest on.
#[derive(Clone, Copy)]
struct Values {
    last: usize,
    low: i32,
    most: u32,
}

/// The next value under which the tests are met; `most` if there is none.
#[inline(never)]
fn seek(
    works: &[Work],
    tests: &[Test],
    numbers: &mut [i32],
    Values { last, low, most }: Values,
    from: u32,
) -> u32 {
    for value in from..most {
        numbers[last] = low.wrapping_add(value as i32);
        work_all(works, numbers);
        if meets(tests, numbers) {
            return value;
        }
    }
    most
}

#[inline(always)]
pub fn work_all(works: &[Work], numbers: &mut [i32]) {
    for Work { operation, to, left, right } in works {
        let (left, right) = (numbers[*left as usize], numbers[*right as usize]);
        numbers[*to as usize] = worked(*operation, left, right);
    }
}

/// The newest tests are tried first: in a loop they are the narrowest.
#[inline(always)]
fn meets(tests: &[Test], numbers: &[i32]) -> bool {
    let holds =
        |test: &Test| test.holds.of(numbers[test.left as usize], numbers[test.right as usize]);
    tests.iter().rev().all(holds)
}

/// A row's values under the present setting.
pub fn values(numbers: &[i32], free: usize) -> [i32; MOST_FREE] {
    let mut values = [0; MOST_FREE];
    values[..free].copy_from_slice(&numbers[..free]);
    values
}
