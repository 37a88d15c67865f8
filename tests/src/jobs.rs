//! The jobs on which speed is measured.

use crate::search::{Job, LEAST_SCRATCH};

/// A rule and what is asked of it.
pub struct Timed {
    pub name: &'static str,
    pub text: String,
    pub job: Job,
}

fn timed(name: &'static str, text: String, job: Job) -> Timed {
    Timed { name, text, job }
}

/// With a budget that is made within a few milliseconds: a longer run would be
/// interrupted on a machine in use.
fn job(low: i32, high: i32, steps: u32) -> Job {
    Job { low, high, steps, skip: 0, budget: 100_000, rows_len: 10_000, scratch_len: LEAST_SCRATCH }
}

fn main_with(body: &str) -> String {
    format!("int main() {{ {body} }}")
}

fn each(count: usize, of: impl Fn(usize) -> String) -> String {
    (0..count).map(of).collect()
}

fn frees(count: usize) -> String {
    each(count, |n| format!("int v{n} free; "))
}

/// Ten jobs: settings, choices, known steps, loops and calls.
pub fn ten() -> Vec<Timed> {
    let mut jobs = five();
    jobs.push(pending());
    jobs.push(deep());
    jobs.push(known_before());
    jobs.push(timed(
        "three free numbers with a product",
        main_with("int a free; int b free; int c free; if (a * b == c) return a + b; else fail;"),
        Job { skip: u32::MAX, ..job(0, 39, 100) },
    ));
    jobs.push(timed(
        "four free numbers with nested tests",
        main_with(
            "int a free; int b free; int c free; int d free; \
             if (a < b) if (b + c < d * 2) if (a * d > c) return a + b + c + d; else fail; \
             else fail; else if (c == d - a) return c; else fail;",
        ),
        Job { skip: u32::MAX, ..job(0, 9, 100) },
    ));
    jobs
}

fn five() -> Vec<Timed> {
    let tree = each(8, |n| format!("if (v{n} > 0) s = s + 1; else s = s - v{n}; "));
    let chains = each(8, |n| format!("{}x = x + v{n}; ", "x = x + x; ".repeat(6)));
    let frees = frees(8);
    vec![
        timed(
            "two free numbers 0 to 999 and one test",
            main_with("int a free; int b free; if (a + b == 999) return a; else fail;"),
            job(0, 999, 100),
        ),
        timed(
            "a tree of choices eight deep",
            main_with(&format!("{frees}int s; s = 0; {tree} return s;")),
            Job { skip: u32::MAX, ..job(0, 1, 1_000) },
        ),
        timed(
            "known steps only",
            main_with(
                "int i; int s; i = 0; s = 0; while (i < 1000) { s = s + i * i; i = i + 1; } return s;",
            ),
            job(0, 0, 1_000),
        ),
        timed(
            "a loop with a free bound of up to 1,000 turns",
            main_with("int n free; int i; i = 0; while (i < n) i = i + 1; return i;"),
            job(0, 999, 1_000),
        ),
        timed(
            "eight free numbers and chains x = x + x",
            main_with(&format!("{frees}int x; x = v0; {chains} if (x < 1) return x; else fail;")),
            Job { skip: u32::MAX, ..job(0, 3, 1_000) },
        ),
    ]
}

/// 125 turns with two choices each, none of which narrows a window.
fn pending() -> Timed {
    timed(
        "a loop with 250 pending choices",
        main_with(
            "int a free; int s; int t; int i; s = a * 25; t = 25 * a; i = 0; \
             while (i < s && i < t) i = i + 1; return i;",
        ),
        job(0, 5, 1_000),
    )
}

/// main, nineteen calls of f and one of g, in which eight choices are made.
fn deep() -> Timed {
    let choices = each(8, |n| format!("if (a + b * {} > {n}) s = s + 1; else ; ", n + 1));
    let text = format!(
        "int g(int a, int b) {{ int s; s = 0; {choices} return s; }} \
         int f(int n, int a, int b) {{ if (n == 0) return g(a, b); else return f(n - 1, a, b) + 1; }} \
         int main() {{ int a free; int b free; return f(18, a, b); }}"
    );
    timed("eight choices, twenty calls deep", text, Job { skip: u32::MAX, ..job(-1, 1, 1_000) })
}

/// 150 known steps, then eight choices on which windows narrow.
fn known_before() -> Timed {
    Timed { name: "150 known steps, then eight choices", ..names(150) }
}

/// So many known steps, then eight choices, which are taken back 255 times.
fn grown(name: &'static str, known: usize, frees: &str, choices: &str) -> Timed {
    // A turn makes four steps.
    let body = format!(
        "{frees}int i; i = 0; while (i < {}) i = i + 1; {}{choices} return i;",
        known / 4,
        ";".repeat(known % 4)
    );
    timed(name, main_with(&body), Job { skip: u32::MAX, ..job(0, 1, 1_000) })
}

/// Each choice between a name and a number.
fn names(known: usize) -> Timed {
    let choices = each(8, |n| format!("if (v{n} > 0) ; else ; "));
    grown("names and numbers", known, &frees(8), &choices)
}

/// Each choice between two results of operations, the right one of which is
/// known: the left one is not the newest temporary.
fn results(known: usize) -> Timed {
    let choices = "if (v0 + v0 > i * 0) ; else ; ".repeat(8);
    grown("two results, the right one known", known, &frees(1), &choices)
}

/// The steps of a path of `grown` that are not known ones before the choices:
/// of main, the declarations, `i = 0`, the loop with its first test, eight
/// choices and the return.
fn around(declarations: usize, choice: usize) -> usize {
    1 + declarations + 1 + 2 + 8 * choice + 1
}

/// Paths of 100, 200, 400 and 800 steps with eight choices at their end.
pub fn growth() -> Vec<(usize, Timed)> {
    let of_names = |length| (length, names(length - around(9, 3)));
    let of_results = |length| (length, results(length - around(2, 5)));
    let lengths = [100, 200, 400, 800];
    lengths.map(of_names).into_iter().chain(lengths.map(of_results)).collect()
}

/// One free number, doubled again and again, then a test that few settings
/// meet. Unfolded, ten more doublings are a thousand times as much.
pub fn chains() -> Vec<Timed> {
    let chain = |name, count: usize| {
        let doubled = "x = x + x; ".repeat(count);
        let body =
            format!("int a free; int x; x = a; {doubled} if (x == 1 - a) return x; else fail;");
        timed(name, main_with(&body), job(0, 4_095, 1_000))
    };
    vec![
        chain("10 doublings", 10),
        chain("20 doublings", 20),
        chain("40 doublings", 40),
        chain("80 doublings", 80),
        chain("160 doublings", 160),
    ]
}
