//! The reference's search against the plan list by brute force from the runs
//! alone, on random small jobs.

use reference::generate;
use reference::plans::plans;
use reference::program::Program;
use reference::random::Random;
use reference::search::{search, Ending, Job};
use reference::with_room;

const MOST_RUNS: usize = 2_000;

/// A number from the environment, for longer trials.
fn number(name: &str, usual: usize) -> usize {
    std::env::var(name).map_or(usual, |word| word.parse().expect("a number"))
}

#[test]
fn search_finds_the_plan_list() {
    with_room(|| {
        let jobs = number("JOBS", 3_000);
        let mut random = Random::new(number("SEED", 20) as u64);
        let (mut compared, mut with_rows, mut cut, mut mixed) = (0, 0, 0, 0);
        for number in 0..jobs {
            let text = generate::small(&mut random);
            let job = generate::small_job(&mut random);
            let shown = || format!("job {number}: {job:?}\n{}", String::from_utf8_lossy(&text));
            let Ok(program) = Program::of(&text) else { continue };
            let Some(plans) = plans(&program, job.low, job.high, job.steps, MOST_RUNS) else {
                continue;
            };
            let whole = search(&program, &job);
            if whole.ending == Ending::Spent {
                continue;
            }
            let ending = if plans.cut { Ending::Cut } else { Ending::Whole };
            assert_eq!(whole.ending, ending, "{}", shown());
            assert_eq!(whole.rows, plans.rows, "{}", shown());
            compared += 1;
            with_rows += usize::from(plans.rows.len() > 1);
            cut += usize::from(plans.cut);
            mixed += usize::from(plans.cut && !plans.rows.is_empty());

            // The same job with its budget just made, less budget, a skip and
            // little room: a front part of the list less the skipped rows.
            let made = search(&program, &Job { budget: whole.moves, ..job });
            assert_eq!(made, whole, "{}", shown());
            let early = Job {
                budget: random.below(whole.moves as usize + 1) as u32,
                skip: random.below(4) as u32,
                rows_len: random.below(60),
                ..job
            };
            let stopped = search(&program, &early);
            let rest = &plans.rows[plans.rows.len().min(early.skip as usize)..];
            assert!(rest.starts_with(&stopped.rows), "{}", shown());
            match stopped.ending {
                Ending::Whole | Ending::Cut => {
                    assert_eq!(stopped.rows, rest, "{}", shown());
                    assert_eq!(stopped.moves, whole.moves, "{}", shown());
                }
                Ending::Full => {
                    assert_eq!(stopped.rows.len(), early.rows_len / 10, "{}", shown());
                    assert!(rest.len() > stopped.rows.len(), "{}", shown());
                }
                Ending::Spent => assert_eq!(stopped.moves, early.budget, "{}", shown()),
            }
        }
        println!(
            "{compared} jobs compared, {with_rows} with rows, {cut} cut, {mixed} cut with rows"
        );
        assert!(
            compared > jobs / 2 && with_rows > jobs / 10 && cut > jobs / 20,
            "too few jobs tell"
        );
    });
}

#[test]
fn plan_lists_from_runs() {
    let listed = |text: &str, low, high, steps| {
        let program = Program::of(text.as_bytes()).expect("accepted");
        let plans = plans(&program, low, high, steps, 10_000).expect("few runs");
        let rows: Vec<(i32, Vec<i32>)> =
            plans.rows.iter().map(|row| (row[0], row[2..2 + row[1] as usize].to_vec())).collect();
        (rows, plans.cut)
    };
    let a = "int main() { int y free; if (y < 2) return y; else fail; }";
    assert_eq!(listed(a, 0, 3, 5), (vec![(0, vec![0]), (1, vec![1])], false));
    assert_eq!(listed(a, 0, 3, 4), (vec![], true));
    // A free declaration that the limit refuses is not reached: the choice is empty.
    assert_eq!(listed(a, 0, 3, 1), (vec![], true));
    let larger_first = "int main() { int a free; if (a > 1) return 1; else return 0; }";
    let values = listed(larger_first, 0, 3, 100).0.into_iter().map(|row| row.1[0]);
    assert_eq!(values.collect::<Vec<_>>(), [2, 3, 0, 1]);
    // A run that reaches more free declarations stands by its tests, not by its length.
    let lengths = "int main() { int a free; if (a == 1) { int b free; return b; } else return 7; }";
    assert_eq!(listed(lengths, 0, 1, 100).0, [(0, vec![1, 0]), (1, vec![1, 1]), (7, vec![0])]);
    let ninth = "int f() { int a free; return f(); } int main() { return f(); }";
    assert_eq!(listed(ninth, 0, 0, 1000), (vec![], true));
}
