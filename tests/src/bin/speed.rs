//! Times: the proved lister, with the feature `list`, beside the third one
//! (`quick`), in one process and by turns; of many rounds the best counts.
//! Both must answer alike.
//!
//! - 1,000 checks of each of several texts of 2,048 bytes, beside the
//!   reference.
//! - Moves per second on ten jobs, and their ratio, proved to quick, in both
//!   manners of `quick`: the plain one has an instruction for each step, as the
//!   proved lister has; the sparing one does less. The time is that of the
//!   search: for the proved lister that of list less that of list with a
//!   budget of 0, which checks and compiles the text and zeroes scratch too.
//! - The same on chains `x = x + x` of growing length: a shared expression
//!   must not cost what it would cost unfolded.
//! - What a taking back costs, as the path before it grows: of choices between
//!   a name and a number, and between two results, the right one of which is
//!   known.
//!
//! The lent buffers are made once and not cleared between calls.

use reference::examples::declarations;
use reference::jobs::{chains, growth, ten, Timed};
use reference::program::Program;
use reference::quick::{self, Manner, Quick, MANNERS};
use reference::{cases, check, linked, list, with_room, Job, Listing};
use std::hint::black_box;
use std::time::{Duration, Instant};

const CHECKS: u32 = 1_000;
const LENGTH: usize = 2_048;
/// The rounds of which the best counts, and about how long a task's turn is.
const ROUNDS: usize = 40;
const TURN: Duration = Duration::from_micros(1_500);

fn main() {
    with_room(|| {
        checks();
        println!("millions of moves per second:");
        ten().iter().for_each(lists);
        println!("the same, as a chain grows:");
        chains().iter().for_each(lists);
        println!("ns for each choice taken back, as the path before it grows:");
        growth().iter().for_each(|(length, timed)| takings_back(*length, timed));
    });
}

fn time(times: u32, task: &mut dyn FnMut()) -> Duration {
    let start = Instant::now();
    for _ in 0..times {
        task();
    }
    start.elapsed() / times
}

/// Works the tasks by turns; for each the time of once, from its best turn.
fn best<const N: usize>(mut tasks: [&mut dyn FnMut(); N]) -> [Duration; N] {
    let times = tasks.each_mut().map(|task| {
        let once = time(1, task).min(time(1, task)).as_nanos().max(1);
        (TURN.as_nanos() / once).max(1) as u32
    });
    let mut best = [Duration::MAX; N];
    for _ in 0..ROUNDS {
        for (best, (task, times)) in best.iter_mut().zip(tasks.iter_mut().zip(times)) {
            *best = (*best).min(time(times, task));
        }
    }
    best
}

fn millis(time: Duration) -> f64 {
    time.as_secs_f64() * 1_000.0
}

fn checks() {
    println!("{CHECKS} checks of a text of {LENGTH} bytes, in ms:");
    for (name, text) in texts() {
        assert_eq!(text.len(), LENGTH);
        let mut plain = || {
            let _ = black_box(check(black_box(&text)));
        };
        let answer = check(&text);
        if !linked::LINKED {
            let [reference] = best([&mut plain]).map(|time| millis(CHECKS * time));
            println!("  {name}: reference {reference:.1}, answer {answer:?}");
            continue;
        }
        let times = best([&mut proved_check(&text), &mut plain]);
        let [proved, reference] = times.map(|time| millis(CHECKS * time));
        println!("  {name}: lister {proved:.1}, reference {reference:.1}, answer {answer:?}");
    }
}

fn proved_check(text: &[u8]) -> impl FnMut() + '_ {
    let mut answer = [0; 2];
    move || linked::check(black_box(text), &mut answer)
}

fn proved_list<'a>(text: &'a [u8], job: &'a Job) -> impl FnMut() + 'a {
    let mut rows = vec![0; job.rows_len];
    let mut scratch = vec![0; job.scratch_len];
    let mut answer = [0; 5];
    move || linked::list(black_box(text), job, &mut rows, &mut scratch, &mut answer)
}

fn quick_search<'a>(text: &[u8], job: &'a Job, manner: Manner) -> impl FnMut() + 'a {
    let mut quick = Quick::new(manner);
    let code = quick.compiled(&Program::of(text).expect("the text is accepted"));
    let mut rows = vec![0; job.rows_len];
    move || {
        black_box(quick.search(black_box(&code), job, &mut rows));
    }
}

/// All listers answer and write what the reference does.
fn agree(name: &str, text: &[u8], job: &Job) -> Listing {
    let reference = list(text, job);
    for manner in MANNERS {
        assert_eq!(quick::list(text, job, manner), reference, "{name}");
    }
    if linked::LISTS {
        assert_eq!(cases::listed(text, job), Some(reference.clone()), "{name}");
    }
    reference.expect("the job is not refused")
}

fn lists(Timed { name, text, job }: &Timed) {
    let text = text.as_bytes();
    let Listing { moves, ending, .. } = agree(name, text, job);
    let speed = |time: Duration| f64::from(moves) / time.as_secs_f64() / 1_000_000.0;
    let [mut plain, mut sparing] = MANNERS.map(|manner| quick_search(text, job, manner));
    if !linked::LISTS {
        let [plain, sparing] = best([&mut plain, &mut sparing]).map(speed);
        println!("  {name}: quick {plain:.1}, sparing {sparing:.1} ({ending:?}, {moves} moves)");
        return;
    }
    let none = Job { budget: 0, ..*job };
    let (mut proved, mut unsearched) = (proved_list(text, job), proved_list(text, &none));
    let times = best([&mut proved, &mut unsearched, &mut plain, &mut sparing]);
    let [listed, unsearched, plain, sparing] = times;
    let proved = speed(listed.saturating_sub(unsearched));
    let [plain, sparing] = [plain, sparing].map(speed);
    println!(
        "  {name}: proved {proved:.1}; quick {plain:.1}, ratio {:.2}; sparing {sparing:.1}, ratio {:.2} ({ending:?}, {moves} moves)",
        proved / plain,
        proved / sparing,
    );
}

/// The time of the whole search less that of its first path, for each choice
/// that is taken back.
fn takings_back(length: usize, Timed { name, text, job }: &Timed) {
    const TAKEN: u32 = 255;
    let text = text.as_bytes();
    // The path's steps, and a setting.
    let first = Job { budget: length as u32 + 1, ..*job };
    let whole = agree(name, text, job);
    let exact = agree(name, text, &Job { steps: length as u32, ..*job });
    assert_eq!(exact, whole, "no path has more than {length} steps");
    assert_eq!(agree(name, text, &first).moves, first.budget);
    let each = |whole: Duration, first: Duration| {
        (whole.saturating_sub(first) / TAKEN).as_secs_f64() * 1e9
    };
    let mut quick = [job, &first].map(|job| quick_search(text, job, Manner::Plain));
    let [quick_whole, quick_first] = quick.each_mut();
    if !linked::LISTS {
        let [whole, first] = best([quick_whole, quick_first]);
        println!("  {name}, {length} steps: quick {:.0}", each(whole, first));
        return;
    }
    let mut proved = [job, &first].map(|job| proved_list(text, job));
    let [proved_whole, proved_first] = proved.each_mut();
    let times = best([proved_whole, proved_first, quick_whole, quick_first]);
    let [whole, first, quick_whole, quick_first] = times;
    println!(
        "  {name}, {length} steps: proved {:.0}, quick {:.0}",
        each(whole, first),
        each(quick_whole, quick_first)
    );
}

/// Fills a text up to the greatest length.
fn filled(before: &str, unit: &str, after: &str) -> Vec<u8> {
    let count = (LENGTH - before.len() - after.len()) / unit.len();
    let mut text = [before, &unit.repeat(count), after].concat().into_bytes();
    text.resize(LENGTH, b' ');
    text
}

fn texts() -> Vec<(&'static str, Vec<u8>)> {
    let sixteen: String = ('a'..='p').map(|letter| format!("int {letter};")).collect();
    let functions: String = (0..16)
        .map(|n| {
            let name = if n == 15 { "main".to_string() } else { format!("f{n}") };
            format!("int {name}(){{{sixteen}p=1;return p;}}")
        })
        .collect();
    let mut names = functions.into_bytes();
    assert!(names.len() <= LENGTH);
    names.resize(LENGTH, b' ');
    // Rule 17 comes before 10, and so meets more variables than a function may
    // have: the most that fit, and the most of variables times statements.
    let most = format!("int main(){{{}", declarations(297));
    let half = format!("int main(){{{}", declarations(150));
    let last = format!("int main(){{{sixteen}");
    vec![
        ("empty statements", filled("int main() { ", ";", " return 1; }")),
        ("assignments", filled("int main() { int a; a = 0; ", "a = a + 1; ", "return a; }")),
        ("sixteen functions of sixteen names", names),
        ("sixteen names, the last again and again", filled(&last, "p=0;", "return p;}")),
        ("a sum", filled("int main() { int a; a = 1; return a", "+a", "; }")),
        ("297 declarations", filled(&most, " ", "fail;}")),
        ("297 declarations and a read", filled(&most, " ", "return a;}")),
        ("150 declarations and statements", filled(&half, ";", "fail;}")),
        ("150 declarations and a sum", filled(&(half.clone() + "a=1"), "+1", ";fail;}")),
        ("calls", filled("int main() { return 1", "+main()", "; }")),
        ("tests", filled("int main() { if (1<2", "&&1<2", ") return 1; else fail; }")),
        ("brackets", filled("int main() { return ", "(", "")),
        ("braces", filled("int main() { ", "{", "")),
        ("conditions", filled("int main() { ", "if (1<2) { ", "")),
        ("a long name", filled("", "a", "")),
        ("a long number", filled("", "9", "")),
        ("blanks", filled("", " ", "")),
    ]
}
