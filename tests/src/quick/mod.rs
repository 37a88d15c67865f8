//! A third lister, unproved and fast: the bar for the proved one's speed, and
//! one more witness. Its text is read by the reference's front end; all behind
//! it is its own.
//!
//! - `code`, `compile`: flat code, in which an instruction carries the steps
//!   that are made with it.
//! - `cells`: what the running functions hold, with a trail.
//! - `terms`: what open values stand for, windows and ranges, with a trail.
//! - `path`: the machine. A choice that is taken back undoes the trails and
//!   goes on from there: nothing is worked again.
//! - `window`: windows and ranges.
//! - `settings`: the settings at a path's end; `search`: path after path.

mod cells;
mod code;
mod compile;
mod path;
mod search;
mod settings;
mod terms;
mod window;

use crate::plans::Row;
use crate::program::Program;
use crate::search::{accepted, Ending, Job, Listing, ROW_WORDS};
use crate::Refusal;
use code::Instruction;
use path::Path;
use search::Search;
use terms::Work;

/// How the work is done; what is answered is the same.
#[derive(Clone, Copy, PartialEq, Eq, Debug)]
pub enum Manner {
    /// An instruction for each step, and for each setting all numbers that tests
    /// rest on anew.
    Plain,
    /// Steps in a row are made at once, and a number is worked again only
    /// where a free number that it rests on has changed.
    Sparing,
}

pub const MANNERS: [Manner; 2] = [Manner::Plain, Manner::Sparing];

/// How a search ended, with the rows that it has written.
#[derive(Clone, Copy, PartialEq, Eq, Debug)]
pub struct Ended {
    pub ending: Ending,
    pub rows: usize,
    pub moves: u32,
}

/// A lister; what it needs is allocated once.
pub struct Quick {
    manner: Manner,
    path: Path,
    /// What is worked for a result that no test rests on.
    works: Vec<Work>,
}

/// Flat code, ready to be searched.
pub struct Compiled(Vec<Instruction>);

/// The operation list.
pub fn list(text: &[u8], job: &Job, manner: Manner) -> Result<Listing, Refusal> {
    let mut rows = vec![0; job.rows_len];
    let Ended { ending, rows: written, moves } = Quick::new(manner).list(text, job, &mut rows)?;
    let row = |words: &[i32]| Row::try_from(words).expect("ten words");
    let rows = rows.chunks_exact(ROW_WORDS).take(written).map(row).collect();
    Ok(Listing { rows, moves, ending })
}

impl Quick {
    pub fn new(manner: Manner) -> Quick {
        Quick { manner, path: Path::new(manner), works: Vec::new() }
    }

    pub fn compiled(&self, program: &Program) -> Compiled {
        Compiled(compile::compile(program, self.manner))
    }

    /// The operation list; the room is that of the slice, not the job's.
    pub fn list(&mut self, text: &[u8], job: &Job, rows: &mut [i32]) -> Result<Ended, Refusal> {
        let code = self.compiled(&accepted(text, job)?);
        Ok(self.search(&code, job, rows))
    }

    /// The search of a job that is not refused.
    pub fn search(&mut self, code: &Compiled, job: &Job, rows: &mut [i32]) -> Ended {
        Search::new(self, &code.0, job, rows).listed()
    }
}
