//! The plan list of a job from the runs alone, by trying every choice.

use crate::program::Program;
use crate::run::{run, End};
use std::cmp::Ordering;

/// Result, count of values, eight values.
pub type Row = [i32; 10];

pub fn row(result: i32, values: &[i32]) -> Row {
    let mut row = [0; 10];
    row[0] = result;
    row[1] = values.len() as i32;
    row[2..2 + values.len()].copy_from_slice(values);
    row
}

#[derive(Debug)]
pub struct Plans {
    pub rows: Vec<Row>,
    /// Whether some choice of the job runs past a limit.
    pub cut: bool,
}

/// The plan list, or nothing where it would take more than `most` runs.
pub fn plans(program: &Program, low: i32, high: i32, steps: u32, most: usize) -> Option<Plans> {
    let mut returned: Vec<(Vec<bool>, Row)> = Vec::new();
    let mut cut = false;
    let mut runs = 0;
    // Choices still to be tried. One whose run wants a further value is
    // replaced by those that go on with each value of its own pair, or of the
    // job's.
    let mut open: Vec<Vec<i32>> = vec![Vec::new()];
    while let Some(values) = open.pop() {
        runs += 1;
        if runs > most {
            return None;
        }
        let run = run(program, &values, steps);
        match run.end {
            End::Wanting(pair) => {
                let (low, high) = pair.unwrap_or((low, high));
                for value in low..=high {
                    let mut longer = values.clone();
                    longer.push(value);
                    open.push(longer);
                }
            }
            // All the others belong to the job: a longer choice is made only
            // where its last value is wanted.
            End::Returned(result) => returned.push((run.tests, row(result, &values))),
            End::Failed => {}
            End::Cut => cut = true,
        }
    }
    returned.sort_by(order);
    let rows = returned.into_iter().map(|(_, row)| row).collect();
    Some(Plans { rows, cut })
}

/// Where the tests first differ, true stands first; where all are equal, the
/// smaller value at the first difference.
fn order(left: &(Vec<bool>, Row), right: &(Vec<bool>, Row)) -> Ordering {
    for (l, r) in left.0.iter().zip(&right.0) {
        if l != r {
            return r.cmp(l);
        }
    }
    assert_eq!(left.0.len(), right.0.len(), "equal tests so far, so both runs went the same way");
    assert_eq!(left.1[1], right.1[1], "equal tests, so both reached the same free declarations");
    left.1[2..].cmp(&right.1[2..])
}
