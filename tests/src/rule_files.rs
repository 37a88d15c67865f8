//! The rules of the folder `rules/`, with their jobs and lists.

use std::path::{Path, PathBuf};

pub struct RuleJob {
    /// The job's line in the file JOBS.
    pub line: String,
    /// What the program reads: the job line and the rule's text.
    pub input: Vec<u8>,
    /// What it is to print.
    pub list: Vec<u8>,
}

impl RuleJob {
    /// The rule's text.
    pub fn text(&self) -> &[u8] {
        let line = self.input.iter().position(|byte| *byte == b'\n').expect("a job line");
        &self.input[line + 1..]
    }
}

pub fn folder() -> PathBuf {
    Path::new(env!("CARGO_MANIFEST_DIR")).join("../rules")
}

/// The jobs of the file JOBS: rule, LOW, HIGH, STEPS and list on each line.
pub fn jobs() -> Vec<RuleJob> {
    let read = |name: &str| {
        std::fs::read(folder().join(name)).unwrap_or_else(|error| panic!("rules/{name}: {error}"))
    };
    let lines = String::from_utf8(read("JOBS")).expect("JOBS is plain text");
    let job = |line: &str| {
        let words: Vec<&str> = line.split(' ').collect();
        let [rule, low, high, steps, list] = words[..] else { panic!("rules/JOBS: {line}") };
        let mut input = format!("job {low} {high} {steps}\n").into_bytes();
        input.extend(read(&format!("{rule}.muli")));
        RuleJob { line: line.to_string(), input, list: read(list) }
    };
    lines.lines().map(job).collect()
}
