//! The plan lister, written a second time: plainly, from the paper (document
//! 01) alone, to be compared with the proved one.
//!
//! - `lexer`, `parser`, `rules`, `assigned`: a text and everything it can be
//!   refused for; the operations check and remarks.
//! - `program`: an accepted text with its names resolved.
//! - `run`: one run with chosen values; `plans`: the plan list from runs alone.
//! - `search`: the search with open values, windows, choices and moves; the
//!   operation list.
//! - `quick`: the operation list a third time, fast and without working a path
//!   again.
//! - `lister`: the program around list (job line and printing); `sheet`: the
//!   same answer on pages; `house`: a text in house style.
//! - `random`, `generate`: random texts and jobs; `examples`: fixed ones.
//! - `jobs`: the jobs that are timed.
//! - `rule_files`: the rules of the folder `rules/`.
//! - `linked`: the exported functions of the proved lister; `cases`: single
//!   comparisons with them.
//! - `documents`: what the documents cite, and the lines to be believed.

pub mod assigned;
pub mod cases;
pub mod documents;
pub mod examples;
pub mod generate;
pub mod house;
pub mod jobs;
pub mod lexer;
pub mod linked;
pub mod lister;
pub mod parser;
pub mod plans;
pub mod program;
pub mod quick;
pub mod random;
pub mod rule_files;
pub mod rules;
pub mod run;
pub mod search;
pub mod sheet;

pub use rules::{check, remarks};
pub use search::{list, Ending, Job, Listing};

/// A numbered refusal and its place, a byte offset from 0.
pub type Refusal = (u32, usize);

/// Works `task` on a thread with plenty of stack: the readers of the reference
/// call themselves once for each open bracket, which may be 2,048 times.
pub fn with_room<T: Send>(task: impl FnOnce() -> T + Send) -> T {
    with_stack(256 << 20, task)
}

/// Works `task` on a thread with this many bytes of stack.
pub fn with_stack<T: Send>(bytes: usize, task: impl FnOnce() -> T + Send) -> T {
    std::thread::scope(|scope| {
        std::thread::Builder::new()
            .stack_size(bytes)
            .spawn_scoped(scope, task)
            .expect("a thread can be started")
            .join()
            .unwrap_or_else(|panic| std::panic::resume_unwind(panic))
    })
}
