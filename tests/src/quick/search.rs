//! Path after path: moves, rows and the ending.

use super::cells::Value;
use super::code::Instruction;
use super::path::End;
use super::settings::{values, work_all, Settings, Tried};
use super::window::Window;
use super::{Ended, Quick};
use crate::search::{Ending, Job, ROW_WORDS};

struct Rows<'a> {
    words: &'a mut [i32],
    written: usize,
    /// Rows still to be skipped.
    skip: u32,
}

impl Rows<'_> {
    /// Whether the row was skipped or written.
    fn take(&mut self, result: i32, numbers: &[i32], free: usize) -> bool {
        if self.skip > 0 {
            self.skip -= 1;
            return true;
        }
        let place = self.written * ROW_WORDS;
        let Some(row) = self.words.get_mut(place..place + ROW_WORDS) else { return false };
        row[0] = result;
        row[1] = free as i32;
        row[2..].copy_from_slice(&values(numbers, free));
        self.written += 1;
        true
    }
}

pub struct Search<'a> {
    quick: &'a mut Quick,
    code: &'a [Instruction],
    job: &'a Job,
    rows: Rows<'a>,
    moves: u32,
    cut_found: bool,
}

impl<'a> Search<'a> {
    pub fn new(
        quick: &'a mut Quick,
        code: &'a [Instruction],
        job: &'a Job,
        rows: &'a mut [i32],
    ) -> Search<'a> {
        let rows = Rows { words: rows, written: 0, skip: job.skip };
        Search { quick, code, job, rows, moves: 0, cut_found: false }
    }

    pub fn listed(mut self) -> Ended {
        let ending = match self.go() {
            Ok(()) if self.cut_found => Ending::Cut,
            Ok(()) => Ending::Whole,
            Err(early) => early,
        };
        Ended { ending, rows: self.rows.written, moves: self.moves }
    }

    /// `Err` where the search is stopped early.
    fn go(&mut self) -> Result<(), Ending> {
        self.quick.path.start(Window { low: self.job.low, high: self.job.high });
        loop {
            self.work_path()?;
            if !self.quick.path.has_choice() {
                return Ok(());
            }
            if self.moves == self.job.budget {
                return Err(Ending::Spent);
            }
            self.moves += 1;
            self.quick.path.take_back();
        }
    }

    /// The path goes on to its end, and the settings there are tried.
    fn work_path(&mut self) -> Result<(), Ending> {
        let path = &mut self.quick.path;
        let limit = self.job.steps - path.steps();
        let (made, end) = path.walk(self.code, limit.min(self.job.budget - self.moves));
        self.moves += made;
        match end {
            End::Returned(result) => self.rows_of(result),
            End::Failed => Ok(()),
            // Where the limit and the budget meet, the limit decides.
            End::Empty if made < limit => Err(Ending::Spent),
            End::Empty | End::Refused => self.look_for_cut(),
        }
    }

    /// At the run's return: all settings are tried.
    fn rows_of(&mut self, result: Value) -> Result<(), Ending> {
        let Quick { path, works, .. } = &mut *self.quick;
        let result = path.terms.of(result);
        path.terms.works_for(result, works);
        let free = path.terms.free;
        let rows = &mut self.rows;
        let mut settings = Settings::new(path, self.job.budget - self.moves);
        let tried = settings.try_all(|numbers| {
            work_all(works, numbers);
            rows.take(numbers[result], numbers, free)
        });
        self.moves = self.job.budget - settings.left;
        match tried {
            Tried::All => Ok(()),
            Tried::Spent => Err(Ending::Spent),
            Tried::Stopped => Err(Ending::Full),
        }
    }

    /// At a cut: settings are tried until one meets the tests, unless a cut
    /// run has been found before.
    fn look_for_cut(&mut self) -> Result<(), Ending> {
        if self.cut_found {
            return Ok(());
        }
        let path = &mut self.quick.path;
        let mut settings = Settings::new(path, self.job.budget - self.moves);
        let tried = settings.try_all(|_| false);
        self.moves = self.job.budget - settings.left;
        self.cut_found = tried == Tried::Stopped;
        match tried {
            Tried::Spent => Err(Ending::Spent),
            _ => Ok(()),
        }
    }
}
