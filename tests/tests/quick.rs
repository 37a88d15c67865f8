//! The third lister against the reference and the paper's own words: the
//! stored examples, the limits, the jobs that are timed, and random ones.

use reference::examples::{by_hand, endings, examples, grid, Example};
use reference::jobs::{chains, growth, ten, Timed};
use reference::lister::{post, read, shown};
use reference::quick::{self, Manner, Quick, MANNERS};
use reference::random::Random;
use reference::search::LEAST_SCRATCH;
use reference::{cases, generate, list, rule_files, with_room, Ending, Job, Listing};
use std::fs;

fn main_with(body: &str) -> String {
    format!("int main() {{ {body} }}")
}

fn job(low: i32, high: i32, steps: u32) -> Job {
    Job {
        low,
        high,
        steps,
        skip: 0,
        budget: 1_000_000,
        rows_len: 10_000,
        scratch_len: LEAST_SCRATCH,
    }
}

/// Both manners of the third lister, kept from job to job, beside the reference.
struct Beside([Quick; 2]);

impl Beside {
    fn new() -> Beside {
        Beside(MANNERS.map(Quick::new))
    }

    /// The reference's listing, which both manners have answered too.
    fn agree(&mut self, name: &str, text: &[u8], job: &Job) -> Option<Listing> {
        let reference = list(text, job);
        for quick in &mut self.0 {
            if let Err(what) = cases::quick(quick, text, job, &reference) {
                panic!("{name}: {what}\n{}", String::from_utf8_lossy(text));
            }
        }
        reference.ok()
    }
}

fn printed(input: &[u8]) -> String {
    let answer = read(input).and_then(|(job, text)| quick::list(text, &job, Manner::Sparing));
    shown(&answer)
}

#[test]
fn tried_by_hand() {
    for (Example { name, text, job }, printed) in by_hand() {
        for manner in MANNERS {
            let answer = shown(&quick::list(&text, &job, manner));
            assert!(answer.starts_with(printed), "{name}: {answer}");
        }
    }
}

#[test]
fn stored_examples() {
    let stored = |file: &str| {
        let folder = env!("CARGO_MANIFEST_DIR");
        fs::read(format!("{folder}/../crates/{file}")).expect("the file can be read")
    };
    let text = |bytes| String::from_utf8(bytes).expect("the output is text");
    assert_eq!(printed(&stored("lister/stdin")), text(stored("lister/stdout")));
    // A byte 1 stands after each input, a byte 2 before one that is printed on
    // pages; those are the reference's.
    let inputs = stored("program_cases/stdin");
    let outputs = inputs.split_inclusive(|byte| *byte == 1).map(|input| {
        let (last, input) = input.split_last().expect("there is a byte");
        assert_eq!(*last, 1);
        match input {
            [2, input @ ..] => with_room(|| text(post(input))),
            input => with_room(|| printed(input)),
        }
    });
    assert_eq!(outputs.collect::<String>(), text(stored("program_cases/stdout")));
    for rule in rule_files::jobs() {
        assert_eq!(printed(&rule.input), text(rule.list), "{}", rule.line);
    }
}

#[test]
fn examples_and_grid() {
    with_room(|| {
        let mut beside = Beside::new();
        for Example { name, text, job } in examples().into_iter().chain(endings()).chain(grid()) {
            beside.agree(name, &text, &job);
        }
    });
}

/// Endings and moves by hand, as the paper's readings have them.
#[test]
fn limits() {
    let ended = |text: &str, job: Job| {
        let Listing { rows, moves, ending } =
            quick::list(text.as_bytes(), &job, Manner::Sparing).expect("the job is not refused");
        (ending, rows.len(), moves)
    };
    let frees = |count| (0..count).map(|n| format!("int v{n} free; ")).collect::<String>();
    let nine = main_with(&(frees(9) + "return v8;"));
    assert_eq!(ended(&nine, job(0, 0, 50)), (Ending::Cut, 0, 10));
    // The limit of steps and the ninth declaration refuse the same step.
    assert_eq!(ended(&nine, job(0, 0, 9)), (Ending::Cut, 0, 10));
    assert_eq!(ended(&nine, Job { budget: 9, ..job(0, 0, 50) }), (Ending::Spent, 0, 9));
    let eight = main_with(&(frees(8) + "return v7;"));
    assert_eq!(ended(&eight, job(0, 0, 50)), (Ending::Whole, 1, 11));
    let endless = main_with("return main();");
    assert_eq!(ended(&endless, job(0, 0, 1_000)), (Ending::Cut, 0, 65));
    assert_eq!(ended(&endless, Job { budget: 64, ..job(0, 0, 1_000) }), (Ending::Spent, 0, 64));
    // main and 31 or 32 calls within it.
    let calls = |depth| {
        format!(
            "int f(int n) {{ if (n == 0) return 7; else return f(n - 1); }} \
             int main() {{ return f({depth}); }}"
        )
    };
    assert_eq!(ended(&calls(30), job(0, 0, 1_000)).0, Ending::Whole);
    assert_eq!(ended(&calls(31), job(0, 0, 1_000)).0, Ending::Cut);
    let a = "int main() { int y free; if (y < 2) return y; else fail; }";
    assert_eq!(ended(a, Job { budget: 0, ..job(0, 3, 100) }), (Ending::Spent, 0, 0));
    assert_eq!(ended(a, Job { budget: 1, ..job(0, 3, 100) }), (Ending::Spent, 0, 1));
    assert_eq!(ended(a, Job { budget: 8, ..job(0, 3, 100) }), (Ending::Spent, 2, 8));
    assert_eq!(ended(a, Job { budget: 9, ..job(0, 3, 100) }), (Ending::Whole, 2, 9));
    assert_eq!(ended(a, job(0, 3, 4)), (Ending::Cut, 0, 6));
    assert_eq!(ended(a, job(0, 3, 1)), (Ending::Cut, 0, 2));
    assert_eq!(ended(a, Job { rows_len: 9, ..job(0, 3, 100) }), (Ending::Full, 0, 6));
    assert_eq!(ended(a, Job { rows_len: 0, skip: 2, ..job(0, 3, 100) }), (Ending::Whole, 0, 9));
    assert_eq!(ended(a, Job { rows_len: 10, skip: 1, ..job(0, 3, 100) }), (Ending::Whole, 1, 9));
}

/// Every step limit, and budgets, skips and rooms around the ends, for rules
/// that reach a limit in one place or another.
#[test]
fn around_the_limits() {
    let mut beside = Beside::new();
    for (text, low, high) in [
        ("int f(int n) { int a free; if (a < n) return f(n - a); else return a + n; } \
          int main() { return f(3) * f(2); }", 0, 1),
        ("int f(int n) { if (n < 40) return f(n + 1) + 1; else return n; } \
          int main() { int a free; if (a * 2 > 1) return f(a); else return f(a + 30); }", 0, 20),
        ("int main() { int n free; int i; i = 0; while (i < n || i * i < n) i = i + 1; return i; }", -1, 9),
    ] {
        let own = job(low, high, 1_000);
        let whole = beside.agree("limits", text.as_bytes(), &own).expect("not refused");
        let Listing { rows, moves, .. } = whole;
        let rows = rows.len() as u32;
        for steps in 1..=120 {
            beside.agree("limits", text.as_bytes(), &Job { steps, ..own });
        }
        let around = (0..=40).chain(moves.saturating_sub(40)..=moves + 1);
        for budget in around.chain([u32::MAX]) {
            for (skip, rows_len) in [(0, 10_000), (0, 0), (1, 15), (rows, 0), (u32::MAX, 0)] {
                beside.agree("limits", text.as_bytes(), &Job { budget, skip, rows_len, ..own });
            }
        }
        for skip in (0..=5).chain(rows.saturating_sub(2)..=rows + 1) {
            for rows_len in [0, 9, 10, 10 * rows as usize] {
                beside.agree("limits", text.as_bytes(), &Job { skip, rows_len, ..own });
            }
        }
    }
}

#[test]
fn timed_jobs() {
    let mut beside = Beside::new();
    let grown = growth().into_iter().map(|(_, timed)| timed);
    for Timed { name, text, job } in ten().into_iter().chain(chains()).chain(grown) {
        let moves = beside.agree(name, text.as_bytes(), &job).expect("not refused").moves;
        for budget in [0, 1, moves - 1, moves] {
            beside.agree(name, text.as_bytes(), &Job { budget, ..job });
        }
    }
}

#[test]
fn random_jobs() {
    with_room(|| {
        let mut random = Random::new(31);
        let mut beside = Beside::new();
        let (mut with_rows, mut cut, mut stopped) = (0, 0, 0);
        for _ in 0..10_000 {
            let text = match random.below(3) {
                0 => generate::small(&mut random),
                1 => generate::valid(&mut random),
                _ => generate::text(&mut random),
            };
            let job = generate::job(&mut random);
            let job = Job { budget: job.budget.min(20_000), ..job };
            let Some(listing) = beside.agree("random", &text, &job) else { continue };
            with_rows += usize::from(listing.rows.len() > 1);
            cut += usize::from(listing.ending == Ending::Cut);
            stopped += usize::from(matches!(listing.ending, Ending::Full | Ending::Spent));
        }
        println!("{with_rows} jobs with rows, {cut} cut, {stopped} stopped");
        assert!(with_rows > 1_000 && cut > 500 && stopped > 500, "too few jobs tell");
    });
}
