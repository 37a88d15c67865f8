//! The terms that open values stand for, in one table: the eight free numbers,
//! then numbers and operations, a term's sides before it. What is made behind
//! a choice is dropped with it, and what was narrowed stands on a trail.

use super::cells::Value;
use super::code::Relation;
use super::window::{Window, ALL};
use super::Manner;
use crate::parser::Operation;
use crate::run::MOST_FREE;

#[derive(Clone, Copy, Debug)]
pub struct Term {
    pub operation: Operation,
    pub left: u32,
    pub right: u32,
    /// The last free number that it rests on; none for a number.
    pub level: i8,
    /// Whether a test rests on it, so that it stands among the works.
    pub needed: bool,
}

/// A term's number from those of its sides.
#[derive(Clone, Copy, Debug)]
pub struct Work {
    pub operation: Operation,
    pub to: u32,
    pub left: u32,
    pub right: u32,
}

/// A range, and the windows under which it was worked.
#[derive(Clone, Copy, Debug)]
struct Worked {
    windows: u64,
    range: Window,
}

/// Said of a number, whose range always stands.
const ALWAYS: u64 = u64::MAX;
/// Said of a range that has not been worked.
const NEVER: u64 = u64::MAX - 1;

pub struct Terms {
    terms: Vec<Term>,
    ranges: Vec<Worked>,
    /// The terms' numbers under the present setting.
    pub numbers: Vec<i32>,
    pub windows: [Window; MOST_FREE],
    /// How many free declarations have been reached.
    pub free: usize,
    /// The number of the present windows, and the next number.
    present: u64,
    next: u64,
    /// The windows that were narrowed, as they were before.
    narrowed: Vec<(usize, Window, u64)>,
    /// The terms that tests rest on, in the order in which they were found.
    needed: Vec<u32>,
    /// What is to be worked for the tests, by the last free number; in the
    /// plain manner all in the last list.
    pub works: [Vec<Work>; MOST_FREE],
    manner: Manner,
    /// Room for going through terms.
    ahead: Vec<u32>,
}

/// What is noted at a choice, to be gone back to.
#[derive(Clone, Copy, Debug)]
pub struct Mark {
    terms: usize,
    free: usize,
    narrowed: usize,
    needed: usize,
}

impl Terms {
    pub fn new(manner: Manner) -> Terms {
        Terms {
            terms: Vec::new(),
            ranges: Vec::new(),
            numbers: Vec::new(),
            windows: [ALL; MOST_FREE],
            free: 0,
            present: 0,
            next: 1,
            narrowed: Vec::new(),
            needed: Vec::new(),
            works: Default::default(),
            manner,
            ahead: Vec::new(),
        }
    }

    pub fn clear(&mut self) {
        self.terms.clear();
        self.ranges.clear();
        self.numbers.clear();
        self.free = 0;
        self.present = 0;
        self.next = 1;
        self.narrowed.clear();
        self.needed.clear();
        self.works.iter_mut().for_each(Vec::clear);
        for number in 0..MOST_FREE {
            self.push(Operation::Add, 0, 0, number as i8, true);
        }
    }

    fn push(&mut self, operation: Operation, left: u32, right: u32, level: i8, needed: bool) {
        self.terms.push(Term { operation, left, right, level, needed });
        self.ranges.push(Worked { windows: NEVER, range: ALL });
        self.numbers.push(0);
    }

    /// The next free number, whose window is the job's.
    pub fn declare(&mut self, window: Window) -> Value {
        let number = self.free;
        self.windows[number] = window;
        self.free += 1;
        Value::open(number)
    }

    fn number(&mut self, number: i32) -> usize {
        self.push(Operation::Add, 0, 0, -1, true);
        let term = self.terms.len() - 1;
        self.ranges[term] = Worked { windows: ALWAYS, range: Window { low: number, high: number } };
        self.numbers[term] = number;
        term
    }

    /// The term that a value stands for.
    pub fn of(&mut self, value: Value) -> usize {
        if value.is_known() {
            self.number(value.number())
        } else {
            value.term()
        }
    }

    #[inline(never)]
    pub fn operate(&mut self, operation: Operation, left: Value, right: Value) -> Value {
        let (left, right) = (self.of(left), self.of(right));
        let level = self.terms[left].level.max(self.terms[right].level);
        self.push(operation, left as u32, right as u32, level, false);
        Value::open(self.terms.len() - 1)
    }

    // ---- ranges ----

    pub fn range_of(&mut self, value: Value) -> Window {
        if value.is_known() {
            Window { low: value.number(), high: value.number() }
        } else {
            self.range(value.term())
        }
    }

    /// The range of a term under the present windows.
    pub fn range(&mut self, term: usize) -> Window {
        if !self.stands(term) {
            self.work_range(term);
        }
        self.standing(term)
    }

    fn stands(&self, term: usize) -> bool {
        let windows = self.ranges[term].windows;
        term < MOST_FREE || windows == self.present || windows == ALWAYS
    }

    fn standing(&self, term: usize) -> Window {
        if term < MOST_FREE {
            self.windows[term]
        } else {
            self.ranges[term].range
        }
    }

    fn work_range(&mut self, term: usize) {
        self.ahead.push(term as u32);
        while let Some(term) = self.ahead.last() {
            let term = *term as usize;
            let Term { operation, left, right, .. } = self.terms[term];
            let side = [left, right].into_iter().find(|side| !self.stands(*side as usize));
            if let Some(side) = side {
                self.ahead.push(side);
                continue;
            }
            let left = self.standing(left as usize);
            let right = self.standing(right as usize);
            let range = left.operated(operation, right);
            self.ranges[term] = Worked { windows: self.present, range };
            self.ahead.pop();
        }
    }

    /// Narrows a window, if this side is just a free number and the range of
    /// the other side is one number.
    pub fn narrow(&mut self, side: usize, holds: Relation, other: Window) {
        if side >= MOST_FREE || other.low != other.high {
            return;
        }
        let window = self.windows[side];
        let narrowed = window.narrowed(holds, other.low);
        assert!(narrowed.low <= narrowed.high, "a window keeps a value");
        if narrowed != window {
            self.narrowed.push((side, window, self.present));
            self.windows[side] = narrowed;
            self.present = self.next;
            self.next += 1;
        }
    }

    // ---- what tests rest on ----

    /// Puts the terms that this one rests on, and itself, among those needed,
    /// but for those that are there.
    fn find(&mut self, term: usize) {
        if self.terms[term].needed {
            return;
        }
        self.ahead.push(term as u32);
        while let Some(term) = self.ahead.last().copied() {
            let Term { left, right, .. } = self.terms[term as usize];
            let missing = |side: &u32| !self.terms[*side as usize].needed;
            if let Some(side) = [left, right].into_iter().find(missing) {
                self.ahead.push(side);
                continue;
            }
            self.terms[term as usize].needed = true;
            self.needed.push(term);
            self.ahead.pop();
        }
    }

    fn work(&self, term: u32) -> Work {
        let Term { operation, left, right, .. } = self.terms[term as usize];
        Work { operation, to: term, left, right }
    }

    /// The list of works in which a term stands whose last free number is this.
    pub fn list_of(&self, last: usize) -> usize {
        match self.manner {
            Manner::Sparing => last,
            Manner::Plain => MOST_FREE - 1,
        }
    }

    /// A test rests on this term.
    pub fn need(&mut self, term: usize) {
        let before = self.needed.len();
        self.find(term);
        for place in before..self.needed.len() {
            let term = self.needed[place];
            let work = self.work(term);
            let list = self.list_of(self.terms[term as usize].level as usize);
            self.works[list].push(work);
        }
    }

    /// What is to be worked for a term that no test rests on.
    pub fn works_for(&mut self, term: usize, works: &mut Vec<Work>) {
        works.clear();
        let before = self.needed.len();
        self.find(term);
        works.extend(self.needed[before..].iter().map(|term| self.work(*term)));
        for term in self.needed.drain(before..) {
            self.terms[term as usize].needed = false;
        }
    }

    // ---- choices ----

    pub fn mark(&self) -> Mark {
        Mark {
            terms: self.terms.len(),
            free: self.free,
            narrowed: self.narrowed.len(),
            needed: self.needed.len(),
        }
    }

    /// The newest choice is taken back.
    pub fn back(&mut self, mark: Mark) {
        while self.needed.len() > mark.needed {
            let term = self.needed.pop().expect("it is long enough") as usize;
            self.terms[term].needed = false;
            self.works[self.list_of(self.terms[term].level as usize)].pop();
        }
        for (number, window, present) in self.narrowed.drain(mark.narrowed..).rev() {
            self.windows[number] = window;
            self.present = present;
        }
        self.terms.truncate(mark.terms);
        self.ranges.truncate(mark.terms);
        self.numbers.truncate(mark.terms);
        self.free = mark.free;
    }
}
