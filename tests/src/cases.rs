//! Single comparisons of the linked lister with the reference, and of the
//! third lister with it. Each lends slices with words in them and around them,
//! and looks at every word afterwards.

use crate::plans::{Plans, Row};
use crate::quick::{Ended, Quick};
use crate::random::Random;
use crate::search::{Ending, Listing, ROW_WORDS};
use crate::{house, linked, sheet, Job, Refusal};
use std::fmt::Debug;
use std::ops::Range;

/// Words on either side of a lent slice, which nobody may touch.
const MARGIN: usize = 8;

/// A lent slice within its margins, and what it is expected to hold in the end.
struct Lent<T> {
    name: &'static str,
    words: Vec<T>,
    expected: Vec<T>,
}

impl<T: Copy + PartialEq + Debug> Lent<T> {
    fn new(name: &'static str, length: usize, mut word: impl FnMut() -> T) -> Lent<T> {
        let words: Vec<T> = (0..length + 2 * MARGIN).map(|_| word()).collect();
        Lent { name, expected: words.clone(), words }
    }

    fn inside(&self) -> Range<usize> {
        MARGIN..self.words.len() - MARGIN
    }

    fn lend(&mut self) -> &mut [T] {
        let inside = self.inside();
        &mut self.words[inside]
    }

    fn expect(&mut self, words: &[T]) {
        self.expected[MARGIN..MARGIN + words.len()].copy_from_slice(words);
    }

    fn compare(&self) -> Result<(), String> {
        let differs = |place: &usize| self.words[*place] != self.expected[*place];
        match (0..self.words.len()).find(differs) {
            None => Ok(()),
            Some(place) => Err(format!(
                "{}[{}] (of {} words) is {:?}, expected {:?}",
                self.name,
                place as i64 - MARGIN as i64,
                self.inside().len(),
                self.words[place],
                self.expected[place]
            )),
        }
    }
}

/// Number and place: 0 and 0 where nothing is refused.
fn number_and_place<T>(answer: &Result<T, Refusal>) -> [u32; 2] {
    match answer {
        Ok(_) => [0, 0],
        Err((number, place)) => [*number, *place as u32],
    }
}

fn answer_length(random: &mut Random, least: usize) -> usize {
    if random.chance(30) {
        random.below(least)
    } else {
        least + random.below(3) * random.below(2)
    }
}

pub fn check(random: &mut Random, text: &[u8]) -> Result<(u32, usize), String> {
    let length = answer_length(random, 2);
    let mut answer = Lent::new("answer", length, || random.bits() as u32);
    let reference = crate::check(text);
    if length >= 2 {
        answer.expect(&number_and_place(&reference));
    }
    linked::check(text, answer.lend());
    answer
        .compare()
        .map_err(|what| format!("plans_check: {what}; the reference: {reference:?}"))?;
    Ok(reference.err().unwrap_or((0, 0)))
}

pub fn remarks(random: &mut Random, text: &[u8]) -> Result<(), String> {
    let places = if random.chance(50) { random.below(18) } else { 16 + random.below(6) };
    let length = answer_length(random, 3);
    let mut offsets = Lent::new("offsets", places, || random.bits() as u16);
    let mut answer = Lent::new("answer", length, || random.bits() as u32);
    let reference = crate::remarks(text, places);
    let expected = reference.as_deref().unwrap_or(&[]);
    if length >= 3 {
        let [number, place] = number_and_place(&reference);
        answer.expect(&[number, place, expected.len() as u32]);
        offsets.expect(expected);
    }
    linked::remarks(text, offsets.lend(), answer.lend());
    let show = |what| format!("plans_remarks: {what}; the reference: {reference:?}");
    answer.compare().map_err(show)?;
    offsets.compare().map_err(show)
}

/// Compares what is written in house style with the second writer's, in slices
/// of lengths around the need, dirty before. Answers the length that was needed,
/// if the text is accepted.
pub fn write(random: &mut Random, text: &[u8]) -> Result<Option<usize>, String> {
    let reference = house::write(text);
    let need = reference.as_ref().map_or(0, String::len);
    let lengths =
        [need, need + 1 + random.below(9), need.saturating_sub(1), random.below(need + 2)];
    for room in lengths {
        let length = answer_length(random, 3);
        write_into(random, text, &reference, room, length)?;
    }
    Ok(reference.is_ok().then_some(need))
}

/// The same for one length of the slice and one of the answer's.
pub fn write_into(
    random: &mut Random,
    text: &[u8],
    reference: &Result<String, Refusal>,
    room: usize,
    length: usize,
) -> Result<(), String> {
    let mut out = Lent::new("out", room, || random.bits() as u8);
    let mut answer = Lent::new("answer", length, || random.bits() as u32);
    if length >= 3 {
        match reference {
            Ok(styled) if styled.len() <= room => {
                answer.expect(&[0, 0, styled.len() as u32]);
                out.expect(styled.as_bytes());
            }
            Ok(_) => answer.expect(&[20, 0, 0]),
            Err((number, place)) => answer.expect(&[*number, *place as u32, 0]),
        }
    }
    linked::write(text, out.lend(), answer.lend());
    let show =
        |what| format!("plans_write into {room} bytes: {what}; the reference: {reference:?}");
    answer.compare().map_err(show)?;
    out.compare().map_err(show)
}

/// The same for what was written: it is read as the same text would be, and
/// written once more it stays as it is, if it is not too long.
pub fn write_again(random: &mut Random, text: &[u8]) -> Result<(), String> {
    let Some(need) = write(random, text)? else { return Ok(()) };
    let written = written(text, need);
    if need > 2_048 {
        return Ok(());
    }
    write(random, &written)?;
    if self::written(&written, need) == written {
        Ok(())
    } else {
        Err("plans_write: written once more it is another text".into())
    }
}

/// What is written for an accepted text, into as many bytes as it needs.
fn written(text: &[u8], need: usize) -> Vec<u8> {
    let mut out = vec![7; need];
    linked::write(text, &mut out, &mut [7; 3]);
    out
}

/// The five words of list's answer. After a refusal those past the place are 0.
pub fn list_answer(reference: &Result<Listing, Refusal>) -> [u32; 5] {
    let [number, place] = number_and_place(reference);
    let Ok(listing) = reference else { return [number, place, 0, 0, 0] };
    let ending = match listing.ending {
        Ending::Whole => 0,
        Ending::Cut => 1,
        Ending::Full => 2,
        Ending::Spent => 3,
    };
    [number, place, ending, listing.rows.len() as u32, listing.moves]
}

/// Compares list with what the reference answered for this text and job, with
/// an answer slice of mostly five words or some more.
pub fn list(
    random: &mut Random,
    text: &[u8],
    job: &Job,
    reference: &Result<Listing, Refusal>,
) -> Result<(), String> {
    let length = answer_length(random, 5);
    list_with(random, text, job, reference, length)
}

/// The same with an answer slice of this length: one of fewer than five words
/// has nothing written anywhere.
pub fn list_with(
    random: &mut Random,
    text: &[u8],
    job: &Job,
    reference: &Result<Listing, Refusal>,
    length: usize,
) -> Result<(), String> {
    let mut lent = LentToList::new(random, job, length);
    if length >= 5 {
        lent.answer.expect(&list_answer(reference));
        if let Ok(listing) = reference {
            lent.rows.expect(&listing.rows.concat());
            lent.scratch.expect(&vec![0; job.scratch_len]);
        }
    }
    lent.list(text, job).map_err(|what| {
        let short = match reference {
            Ok(listing) => {
                format!("{:?} {} rows {} moves", listing.ending, listing.rows.len(), listing.moves)
            }
            Err(refusal) => format!("refusal {refusal:?}"),
        };
        format!("plans_list: {what}; the reference: {short}; {job:?}")
    })
}

/// Compares the third lister with what the reference answered. What it has
/// kept from another job must not show.
pub fn quick(
    quick: &mut Quick,
    text: &[u8],
    job: &Job,
    reference: &Result<Listing, Refusal>,
) -> Result<(), String> {
    let mut number = 0;
    let mut rows = Lent::new("rows", job.rows_len, || {
        number += 1;
        number
    });
    let expected = reference.as_ref().map(|Listing { rows, moves, ending }| Ended {
        ending: *ending,
        rows: rows.len(),
        moves: *moves,
    });
    if let Ok(listing) = reference {
        rows.expect(&listing.rows.concat());
    }
    let answer = quick.list(text, job, rows.lend());
    if answer.as_ref() != expected.as_ref().map_err(|refusal| *refusal) {
        return Err(format!("quick: {answer:?}; the reference: {expected:?}; {job:?}"));
    }
    rows.compare().map_err(|what| format!("quick: {what}; the reference: {expected:?}; {job:?}"))
}

/// What is lent to list beside the text, with random words in it.
struct LentToList {
    rows: Lent<i32>,
    scratch: Lent<u32>,
    answer: Lent<u32>,
}

impl LentToList {
    fn new(random: &mut Random, job: &Job, answer: usize) -> LentToList {
        LentToList {
            rows: Lent::new("rows", job.rows_len, || random.bits() as i32),
            scratch: Lent::new("scratch", job.scratch_len, || random.bits() as u32),
            answer: Lent::new("answer", answer, || random.bits() as u32),
        }
    }

    fn call(&mut self, text: &[u8], job: &Job) {
        linked::list(text, job, self.rows.lend(), self.scratch.lend(), self.answer.lend());
    }

    fn compare(&self) -> Result<(), String> {
        self.answer.compare()?;
        self.rows.compare()?;
        self.scratch.compare()
    }

    fn list(&mut self, text: &[u8], job: &Job) -> Result<(), String> {
        self.call(text, job);
        self.compare()
    }
}

/// What the linked list answers and writes; `None` where that has no meaning.
pub fn listed(text: &[u8], job: &Job) -> Option<Result<Listing, Refusal>> {
    let mut rows = vec![7; job.rows_len];
    let mut scratch = vec![7; job.scratch_len];
    let mut answer = [7; 5];
    linked::list(text, job, &mut rows, &mut scratch, &mut answer);
    let [number, place, ending, written, moves] = answer;
    if number != 0 {
        return Some(Err((number, place as usize)));
    }
    let ending = match ending {
        0 => Ending::Whole,
        1 => Ending::Cut,
        2 => Ending::Full,
        3 => Ending::Spent,
        _ => return None,
    };
    let words = rows.get(..written as usize * ROW_WORDS)?;
    let row = |words: &[i32]| words.try_into().expect("ten words");
    let rows: Vec<Row> = words.chunks_exact(ROW_WORDS).map(row).collect();
    let counted = rows.iter().all(|row| (0..=8).contains(&row[1]));
    counted.then_some(Ok(Listing { rows, moves, ending }))
}

/// Holds what list wrote to the plan list that was made from the runs alone,
/// as demand 3 says; the reference's search has no part in it. The job is not
/// refused.
pub fn plans(random: &mut Random, text: &[u8], job: &Job, plans: &Plans) -> Result<(), String> {
    let mut lent = LentToList::new(random, job, 5);
    lent.call(text, job);
    let answer = lent.answer.lend().to_vec();
    let [number, place, ending, written, moves] = answer[..] else { unreachable!("five words") };
    let show = |what: &str| {
        let rows = plans.rows.len();
        let cut = if plans.cut { "some" } else { "no" };
        format!("plans_list: {what}; answer {answer:?}; {rows} rows from runs, {cut} cut; {job:?}")
    };
    if (number, place) != (0, 0) {
        return Err(show("the job was refused"));
    }
    let room = job.rows_len / ROW_WORDS;
    if written as usize > room {
        return Err(show("there are more rows than have a place"));
    }
    let rest = &plans.rows[plans.rows.len().min(job.skip as usize)..];
    let Some(front) = rest.get(..written as usize) else {
        return Err(show("there are rows that no run gives"));
    };
    lent.answer.expect(&answer);
    lent.rows.expect(&front.concat());
    lent.scratch.expect(&vec![0; job.scratch_len]);
    lent.compare().map_err(|what| show(&what))?;
    let all = front.len() == rest.len();
    let fits = match ending {
        0 => all && !plans.cut && moves <= job.budget,
        1 => all && plans.cut && moves <= job.budget,
        2 => !all && front.len() == room && moves <= job.budget,
        3 => moves == job.budget,
        _ => false,
    };
    if fits {
        Ok(())
    } else {
        Err(show("the ending does not fit the plan list"))
    }
}

/// Compares a page with the reference's: the rows in the slice's whole tens of
/// words, the first 58 of them. With under 4,860 bytes nothing is written.
pub fn page(
    random: &mut Random,
    rows: &[i32],
    number: u32,
    ending: u32,
    bytes: usize,
) -> Result<(), String> {
    let mut out = Lent::new("out", bytes, || random.bits() as u8);
    let row = |words: &[i32]| words.try_into().expect("ten words");
    let shown: Vec<Row> = rows.chunks_exact(ROW_WORDS).take(58).map(row).collect();
    let word = match ending {
        0 => Some(Ending::Whole),
        1 => Some(Ending::Cut),
        2 => Some(Ending::Full),
        3 => Some(Ending::Spent),
        _ => None,
    };
    let expected = sheet::page(number, &shown, word);
    if bytes >= expected.len() {
        out.expect(&expected);
    }
    linked::page(rows, number, ending, out.lend());
    let words = rows.len();
    out.compare().map_err(|what| {
        format!("plans_page: {what}; {words} words of rows, page {number}, ending {ending}")
    })
}
