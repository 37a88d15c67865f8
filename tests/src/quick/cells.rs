//! The cells of the functions that are running, with a trail: what stood in a
//! cell that a choice may be taken back to.

use super::compile::MOST_REGISTERS;
use crate::run::DEEPEST_CALL;

/// Known, or open: then it is the number of a term.
#[derive(Clone, Copy, PartialEq, Eq, Debug)]
pub struct Value(u64);

impl Value {
    #[inline(always)]
    pub fn known(number: i32) -> Value {
        Value(u64::from(number as u32))
    }

    pub fn open(term: usize) -> Value {
        Value(1 << 32 | term as u64)
    }

    pub fn is_known(self) -> bool {
        self.0 >> 32 == 0
    }

    #[inline(always)]
    pub fn both_known(self, other: Value) -> bool {
        (self.0 | other.0) >> 32 == 0
    }

    /// The number of a known value.
    #[inline(always)]
    pub fn number(self) -> i32 {
        self.0 as i32
    }

    /// The term of an open value.
    pub fn term(self) -> usize {
        self.0 as u32 as usize
    }

    /// The way back from a call takes a cell as well.
    #[inline(always)]
    pub fn way(at: usize, base: usize) -> Value {
        Value((base as u64) << 32 | at as u64)
    }

    #[inline(always)]
    pub fn way_back(self) -> (usize, usize) {
        (self.0 as u32 as usize, (self.0 >> 32) as usize)
    }
}

/// A power of two, so that a place is made to fit by a mask.
const CELLS: usize = ((DEEPEST_CALL + 1) * MOST_REGISTERS).next_power_of_two();

pub struct Cells {
    cells: Box<[Value; CELLS]>,
    trail: Vec<(usize, Value)>,
    /// The cells below this one are kept for a choice.
    kept: usize,
}

/// What is noted at a choice, to be gone back to.
#[derive(Clone, Copy, Debug)]
pub struct Mark {
    trail: usize,
    kept: usize,
}

impl Cells {
    pub fn new() -> Cells {
        Cells { cells: Box::new([Value(0); CELLS]), trail: Vec::new(), kept: 0 }
    }

    pub fn clear(&mut self) {
        self.trail.clear();
        self.kept = 0;
    }

    #[inline(always)]
    pub fn get(&self, place: usize) -> Value {
        self.cells[place % CELLS]
    }

    #[inline(always)]
    pub fn set(&mut self, place: usize, value: Value) {
        let cell = &mut self.cells[place % CELLS];
        if place < self.kept {
            self.trail.push((place, *cell));
        }
        *cell = value;
    }

    /// A choice is made: the cells below `held` are kept from now on.
    pub fn mark(&mut self, held: usize) -> Mark {
        let mark = Mark { trail: self.trail.len(), kept: self.kept };
        self.kept = self.kept.max(held);
        mark
    }

    /// The newest choice is taken back.
    pub fn back(&mut self, mark: Mark) {
        for (place, value) in self.trail.drain(mark.trail..).rev() {
            self.cells[place % CELLS] = value;
        }
        self.kept = mark.kept;
    }
}
