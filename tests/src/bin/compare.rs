//! Compares the linked lister with the reference, and the third lister with
//! both.
//!
//! `compare CASES SEED`: first the paper's examples and, with the feature
//! `list`, the grid of jobs; then random cases. Each is a text for check,
//! remarks and the writer and, with the feature `list`, a text with a job for list, which all
//! three answer; in one of four, what list wrote for a small job is held to the
//! plan list from runs alone. The first difference is printed with its text,
//! and the exit code is then 1.

use reference::examples::{self, Example};
use reference::lister::shown;
use reference::plans::plans;
use reference::program::Program;
use reference::quick::{Quick, MANNERS};
use reference::random::Random;
use reference::search::Ending;
use reference::{
    cases, generate, house, linked, list, rule_files, with_room, Job, Listing, Refusal,
};
use std::collections::BTreeMap;

/// Budgets beyond this many moves are held down where they would be made.
const MOST_MOVES: u32 = 30_000;
/// The same for one case in a hundred.
const MOST_MOVES_SELDOM: u32 = 1_000_000;
/// Jobs that would take more runs than this are not tried by runs alone.
const MOST_RUNS: usize = 1_000;

fn main() {
    let numbers: Vec<u64> =
        std::env::args().skip(1).map(|word| word.parse().expect("a number")).collect();
    let (count, seed) = match numbers[..] {
        [count, seed] => (count, seed),
        [count] => (count, 1),
        _ => (1_000, 1),
    };
    if !linked::LINKED {
        eprintln!("Built without PLANS_LIB: there is nothing to compare with.");
        std::process::exit(2);
    }
    if !with_room(|| compare(count, seed)) {
        std::process::exit(1);
    }
}

fn compare(count: u64, seed: u64) -> bool {
    if !(compare_examples() && compare_rooms())
        || (linked::LISTS && !(compare_by_hand() && compare_grid() && compare_pages()))
    {
        return false;
    }
    let mut answers: BTreeMap<String, u64> = BTreeMap::new();
    let mut third = Third::new();
    for case in 0..count {
        // Each case has a seed of its own, so that one can be tried again.
        let mut random = Random::new(seed.wrapping_mul(1_000_003).wrapping_add(case));
        let text = generate::text(&mut random);
        let checked = cases::check(&mut random, &text);
        let outcome = match &checked {
            Ok((number, _)) => {
                *answers.entry(format!("check {number}")).or_default() += 1;
                cases::remarks(&mut random, &text)
                    .and_then(|_| cases::write_again(&mut random, &text))
            }
            Err(what) => Err(what.clone()),
        };
        if let Err(what) = outcome {
            return differs(case, &text, &what);
        }
        if linked::LISTS {
            let text = list_text(&mut random, text);
            let (job, reference) = list_job(&mut random, &text);
            let kind = match &reference {
                Ok(listing) if listing.rows.len() > 1 => {
                    format!("list {:?} with rows", listing.ending)
                }
                Ok(listing) => format!("list {:?}", listing.ending),
                Err((number, _)) => format!("list {number}"),
            };
            *answers.entry(kind).or_default() += 1;
            let outcome = cases::list(&mut random, &text, &job, &reference);
            if let Err(what) = outcome.and_then(|_| third.agrees(&text, &job, &reference)) {
                return differs(case, &text, &what);
            }
            if let Err(what) = random_page(&mut random) {
                return differs(case, &text, &what);
            }
            if random.chance(250) {
                let text = generate::small(&mut random);
                match compare_with_runs(&mut random, &text) {
                    Some(Ok(())) => *answers.entry("lists from runs".into()).or_default() += 1,
                    Some(Err(what)) => return differs(case, &text, &what),
                    None => {}
                }
            }
        }
    }
    let kinds: Vec<String> = answers.iter().map(|(kind, n)| format!("{kind}: {n}")).collect();
    println!("{}", kinds.join(", "));
    let what = if linked::LISTS {
        "check, remarks, the writer, list (by three listers) and a page"
    } else {
        "check, remarks and the writer"
    };
    println!("{count} cases of {what} agreed, seed {seed}");
    true
}

/// The third lister, in both its manners, kept from job to job.
struct Third([Quick; 2]);

impl Third {
    fn new() -> Third {
        Third(MANNERS.map(Quick::new))
    }

    fn agrees(
        &mut self,
        text: &[u8],
        job: &Job,
        reference: &Result<Listing, Refusal>,
    ) -> Result<(), String> {
        self.0.iter_mut().try_for_each(|quick| cases::quick(quick, text, job, reference))
    }
}

/// The paper's examples and limits, each once, before the random cases.
fn compare_examples() -> bool {
    let mut random = Random::new(7);
    let mut third = Third::new();
    let examples = examples::examples();
    for (number, Example { name, text, job }) in examples.iter().enumerate() {
        let mut outcome = cases::check(&mut random, text).map(|_| ());
        outcome = outcome.and_then(|_| cases::remarks(&mut random, text));
        outcome = outcome.and_then(|_| cases::write_again(&mut random, text));
        if linked::LISTS {
            let reference = list(text, job);
            outcome = outcome.and_then(|_| cases::list(&mut random, text, job, &reference));
            outcome = outcome.and_then(|_| third.agrees(text, job, &reference));
        }
        if let Err(what) = outcome {
            return differs(number as u64, text, &format!("example {name}: {what}"));
        }
    }
    println!("{} examples agreed", examples.len());
    true
}

/// The writer in slices of every length up to some bytes past the need, and
/// with answers of every small length: the rules of the folder `rules/`, one
/// whose house style is longer than a text may be, and one that is refused.
fn compare_rooms() -> bool {
    let mut random = Random::new(10);
    let mut texts: Vec<Vec<u8>> =
        rule_files::jobs().iter().map(|job| job.text().to_vec()).collect();
    texts.push(format!("int main(){{{}fail;}}", "1;".repeat(500)).into_bytes());
    texts.push(b"int main() { return 1 }".to_vec());
    let mut rooms = 0;
    for (number, text) in texts.iter().enumerate() {
        let reference = house::write(text);
        let need = reference.as_ref().map_or(0, String::len);
        let around = [need.saturating_sub(1), need, need + 1];
        let answers = around.iter().flat_map(|room| (0..=5).map(|length| (*room, length)));
        for (room, length) in (0..=need + 9).map(|room| (room, 3)).chain(answers) {
            rooms += 1;
            if let Err(what) = cases::write_into(&mut random, text, &reference, room, length) {
                return differs(number as u64, text, &what);
            }
        }
    }
    println!("{rooms} slices of every length for the writer agreed");
    true
}

/// The paper's examples against the paper's own words.
fn compare_by_hand() -> bool {
    let known = examples::by_hand();
    for (number, (Example { name, text, job }, printed)) in known.iter().enumerate() {
        let answer = cases::listed(text, job).map(|answer| shown(&answer));
        if !answer.as_ref().is_some_and(|answer| answer.starts_with(printed)) {
            let what = format!("by hand, {name}: {answer:?}, expected {printed:?}");
            return differs(number as u64, text, &what);
        }
    }
    println!("{} examples of the paper answered as it says", known.len());
    true
}

/// The grid, and answer slices of every small length.
fn compare_grid() -> bool {
    let mut random = Random::new(8);
    let mut third = Third::new();
    let grid = examples::grid();
    for (number, Example { name, text, job }) in grid.iter().enumerate() {
        let reference = list(text, job);
        let outcome = cases::list_with(&mut random, text, job, &reference, 5);
        if let Err(what) = outcome.and_then(|_| third.agrees(text, job, &reference)) {
            return differs(number as u64, text, &format!("grid, {name}: {what}"));
        }
    }
    let endings = examples::endings();
    for (number, Example { name, text, job }) in endings.iter().enumerate() {
        for length in 0..=7 {
            if let Err(what) = cases::list_with(&mut random, text, job, &list(text, job), length) {
                return differs(number as u64, text, &format!("answer slices, {name}: {what}"));
            }
        }
    }
    println!("{} jobs of the grid agreed", grid.len() + 8 * endings.len());
    true
}

/// Values around the width of a column, with and without a minus, and around
/// the ends of 32 bits.
const WIDTHS: [i32; 14] = [
    0,
    -1,
    9_999_999,
    10_000_000,
    99_999_999,
    100_000_000,
    123_456_789,
    -999_999,
    -1_000_000,
    -9_999_999,
    -10_000_000,
    -99_999_999,
    i32::MAX,
    i32::MIN,
];

/// Page numbers around those that have five digits.
const PAGES: [u32; 8] = [0, 1, 10, 99_999, 100_000, 100_007, 123_456, u32::MAX];

/// Pages at the limits: counts of rows, words that make no row, widths, page
/// numbers, endings, lengths of the lent slice.
fn compare_pages() -> bool {
    let mut random = Random::new(9);
    let mut pages = 0;
    for rows in [0, 1, 2, 57, 58, 59, 116, 117, 1_000] {
        for more in [0, 1, 9] {
            for number in PAGES {
                let words = row_words(&mut random, 10 * rows + more);
                for (ending, bytes) in [
                    (0, 4_860),
                    (1, 4_861),
                    (2, 9_720),
                    (3, 4_860),
                    (4, 4_860),
                    (u32::MAX, 4_900),
                    (0, 4_859),
                    (1, 4_850),
                    (2, 81),
                    (3, 1),
                    (4, 0),
                ] {
                    pages += 1;
                    if let Err(what) = cases::page(&mut random, &words, number, ending, bytes) {
                        return differs(pages, &[], &what);
                    }
                }
            }
        }
    }
    println!("{pages} pages at the limits agreed");
    true
}

/// Rows with any counts of values and values of any width.
fn row_words(random: &mut Random, words: usize) -> Vec<i32> {
    let mut word = |place: usize| match (place % 10, random.below(4)) {
        (1, 0) => *random.pick(&[&-1, &9, &10, &i32::MIN, &i32::MAX]),
        (1, _) => random.below(9) as i32,
        (_, 0) => *random.pick(&WIDTHS.each_ref()),
        (_, 1) => random.bits() as i32,
        _ => random.between(-100, 1_000) as i32,
    };
    (0..words).map(&mut word).collect()
}

fn random_page(random: &mut Random) -> Result<(), String> {
    let words = random.below(700);
    let rows = row_words(random, words);
    let number = match random.below(3) {
        0 => *random.pick(&PAGES.each_ref()),
        1 => random.bits() as u32,
        _ => random.below(20) as u32,
    };
    let ending = if random.chance(50) { random.bits() as u32 } else { random.below(6) as u32 };
    let bytes = if random.chance(100) { random.below(4_860) } else { 4_860 + random.below(100) };
    cases::page(random, &rows, number, ending, bytes)
}

/// A small job with a random skip, budget and room, against the runs alone.
fn compare_with_runs(random: &mut Random, text: &[u8]) -> Option<Result<(), String>> {
    let job = generate::small_job(random);
    let program = Program::of(text).ok()?;
    let plans = plans(&program, job.low, job.high, job.steps, MOST_RUNS)?;
    let rows = plans.rows.len();
    let stopped = Job {
        skip: if random.chance(500) { 0 } else { random.below(rows + 2) as u32 },
        budget: if random.chance(700) { job.budget } else { random.below(2_000) as u32 },
        rows_len: if random.chance(500) { job.rows_len } else { random.below(10 * rows + 12) },
        ..job
    };
    Some(cases::plans(random, text, &stopped, &plans))
}

fn differs(case: u64, text: &[u8], what: &str) -> bool {
    println!("case {case}: {what}");
    println!("text of {} bytes: {:?}", text.len(), String::from_utf8_lossy(text));
    println!("{case} cases agreed before it");
    false
}

/// Mostly a program that is accepted, else the text that was checked.
fn list_text(random: &mut Random, checked: Vec<u8>) -> Vec<u8> {
    match random.below(10) {
        0..=3 => generate::small(random),
        4..=7 => generate::valid(random),
        _ => checked,
    }
}

/// A random job and the reference's answer; some jobs stand just at what the
/// search needs.
fn list_job(random: &mut Random, text: &[u8]) -> (Job, Result<Listing, Refusal>) {
    let most = if random.chance(10) { MOST_MOVES_SELDOM } else { MOST_MOVES };
    let mut job = generate::job(random);
    let mut reference = held_down(text, &mut job, most);
    if let Ok(listing) = &reference {
        if random.chance(400) {
            let moves = i64::from(listing.moves);
            let rows = listing.rows.len() as i64;
            let near = random.between(-1, 1);
            match random.below(6) {
                0 => job.budget = (moves + near).max(0) as u32,
                1 => job.budget = random.between(0, moves) as u32,
                2 => job.skip = (rows + near).max(0) as u32,
                // So few steps that some runs are cut and others return.
                3 | 4 => job.steps = 8 + random.below(40) as u32,
                _ => job.rows_len = (10 * (rows + near) + random.between(-1, 1)).max(0) as usize,
            }
            reference = held_down(text, &mut job, most);
        }
    }
    (job, reference)
}

/// The reference's answer; a budget that would take too long is held down.
fn held_down(text: &[u8], job: &mut Job, most: u32) -> Result<Listing, Refusal> {
    let wished = job.budget;
    job.budget = wished.min(most);
    let reference = list(text, job);
    let spent = matches!(&reference, Ok(listing) if listing.ending == Ending::Spent);
    if !spent {
        // A larger budget changes nothing.
        job.budget = wished;
    }
    reference
}
