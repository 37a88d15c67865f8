//! Compares a program that reads a job line and a text, and prints the list,
//! with the reference: `program PATH CASES SEED [CHECKER]`; one that prints it
//! on pages: `program --sheet PATH CASES SEED`. First the rules of
//! the folder `rules/`, whose lists stand there, and inputs at the limits; then
//! random inputs. The same for the program CHECKER, which reads a text and
//! prints what check and remarks answer, and for one that prints it in house
//! style: `program --house PATH CASES SEED`.

use reference::lister::{checked, post, print};
use reference::random::Random;
use reference::{generate, house, rule_files, with_room};
use std::io::{Read, Write};
use std::process::{Child, ChildStdin, ChildStdout, Command, Stdio};
use std::time::Duration;

const A: &str = "int main() { int y free; if (y < 2) return y; else fail; }";

fn main() {
    let mut arguments: Vec<String> = std::env::args().skip(1).collect();
    if let [word, path, count, seed] = &arguments[..] {
        if word == "--house" {
            let (count, seed) = (count.parse().expect("a number"), seed.parse().expect("a seed"));
            return texts_by(path, "writing", house::shown, count, seed);
        }
    }
    let on_pages = arguments.first().is_some_and(|word| word == "--sheet");
    if on_pages {
        arguments.remove(0);
    }
    let ([path, count, seed] | [path, count, seed, _]) = &arguments[..] else {
        eprintln!(
            "program PATH CASES SEED [CHECKER], or program --sheet or --house PATH CASES SEED"
        );
        std::process::exit(2);
    };
    let expected_for = |input: &[u8]| -> Vec<u8> {
        with_room(|| if on_pages { post(input) } else { print(input).into_bytes() })
    };
    let count: u64 = count.parse().expect("a number of cases");
    let seed: u64 = seed.parse().expect("a seed");
    let rules = rule_files::jobs();
    for job in &rules {
        assert_eq!(with_room(|| print(&job.input)).as_bytes(), job.list, "the reference");
        compare(path, &job.line, &job.input, &expected_for(&job.input), None);
    }
    println!("{} lists of rules agreed", rules.len());
    let limits = limits();
    for (name, input, last) in &limits {
        let printed = with_room(|| print(input));
        assert_eq!(printed.lines().last(), Some(&last[..]), "the reference, {name}");
        compare(path, name, input, &expected_for(input), None);
    }
    // Some of them in pieces, as a slow pipe would hand them over.
    for (name, input, _) in limits.iter().step_by(5) {
        compare(path, name, input, &expected_for(input), Some(input.len() / 6 + 1));
    }
    println!("{} inputs at the limits agreed", limits.len());
    // Inputs that never end, as soon as they settle the answer.
    let open = unended();
    for (name, input) in &open {
        assert_eq!(
            answered_while_open(path, input, 60_000),
            Some(expected_for(input)),
            "{name}, left open"
        );
    }
    assert_eq!(
        answered_while_open(path, b"job 0 3 100\nint main() { return 0; }", 500),
        None,
        "a text may go on"
    );
    println!("{} inputs left open agreed", open.len());
    for case in 0..count {
        let mut random = Random::new(seed.wrapping_mul(1_000_003).wrapping_add(case));
        let input = input(&mut random);
        compare(path, &format!("case {case}"), &input, &expected_for(&input), None);
    }
    println!("{count} inputs of the program agreed, seed {seed}");
    if let Some(path) = arguments.get(3) {
        texts_by(path, "checking", checked, count, seed);
    }
}

/// A program that checks a text or writes it in house style: its bytes may be any, and 2,049 of them settle the answer.
fn texts_by(path: &str, what: &str, answer: fn(&[u8]) -> String, count: u64, seed: u64) {
    let mut texts: Vec<Vec<u8>> =
        rule_files::jobs().iter().map(|job| job.text().to_vec()).collect();
    texts.extend([
        b"".to_vec(),
        b"\0".to_vec(),
        b"\x01".to_vec(),
        b"int\x01main() { fail; }".to_vec(),
    ]);
    for length in [2_047, 2_048, 2_049, 2_050, 70_000, 300_000] {
        let mut text = A.as_bytes().to_vec();
        text.resize(length, b' ');
        texts.push(text);
    }
    for case in 0..count {
        let mut random = Random::new(seed.wrapping_mul(1_000_003).wrapping_add(case));
        texts.push(generate::text(&mut random));
    }
    for (case, text) in texts.iter().enumerate() {
        let expected = with_room(|| answer(text));
        let piece = (case < 12).then_some(text.len() / 6 + 1);
        compare(path, &format!("text {case}"), text, expected.as_bytes(), piece);
    }
    let long = [b' '; 2_049];
    assert_eq!(answered_while_open(path, &long, 60_000), Some(b"refused 1 at 2048\n".to_vec()));
    assert_eq!(answered_while_open(path, &long[1..], 500), None, "a text may go on");
    println!("{} texts of the {what} program agreed, seed {seed}", texts.len());
}

/// Ends with exit code 1 where the program prints something else.
fn compare(path: &str, name: &str, input: &[u8], expected: &[u8], piece: Option<usize>) {
    let printed = printed_by(path, input, piece);
    if printed.as_ref().is_ok_and(|printed| printed == expected) {
        return;
    }
    println!("{name}, input of {} bytes: {:?}", input.len(), String::from_utf8_lossy(input));
    match printed {
        Ok(printed) => println!("printed:\n{}", String::from_utf8_lossy(&printed)),
        Err(end) => println!("the program did not end well: {end}"),
    }
    println!("expected:\n{}", String::from_utf8_lossy(expected));
    std::process::exit(1);
}

/// The program, with pipes to its input and from its output.
fn started(path: &str) -> (Child, ChildStdin, ChildStdout) {
    let mut child = Command::new(path)
        .stdin(Stdio::piped())
        .stdout(Stdio::piped())
        .spawn()
        .expect("the program can be started");
    let stdin = child.stdin.take().expect("a pipe");
    let stdout = child.stdout.take().expect("a pipe");
    (child, stdin, stdout)
}

/// What the program prints, or how it ended if not with exit status 0.
fn printed_by(path: &str, input: &[u8], piece: Option<usize>) -> Result<Vec<u8>, String> {
    let (mut child, mut stdin, mut stdout) = started(path);
    let mut printed = Vec::new();
    std::thread::scope(|scope| {
        // A program that has read enough may end before all is written.
        scope.spawn(move || match piece {
            None => {
                let _ = stdin.write_all(input);
            }
            Some(piece) => {
                for bytes in input.chunks(piece) {
                    let _ = stdin.write_all(bytes);
                    std::thread::sleep(Duration::from_millis(20));
                }
            }
        });
        stdout.read_to_end(&mut printed).expect("the output can be read");
    });
    let status = child.wait().expect("the program ends");
    if status.success() {
        Ok(printed)
    } else {
        Err(status.to_string())
    }
}

/// What the program prints while its input is left open; none if it goes on to read for so many milliseconds.
fn answered_while_open(path: &str, input: &[u8], wait: u64) -> Option<Vec<u8>> {
    let (mut child, mut stdin, mut stdout) = started(path);
    stdin.write_all(input).expect("the input can be written");
    let (sender, receiver) = std::sync::mpsc::channel();
    let reader = std::thread::spawn(move || {
        let mut printed = Vec::new();
        stdout.read_to_end(&mut printed).expect("the output can be read");
        let _ = sender.send(printed);
    });
    let printed = receiver.recv_timeout(Duration::from_millis(wait)).ok();
    drop(stdin);
    reader.join().expect("the output ends");
    child.wait().expect("the program ends");
    printed
}

/// Inputs that settle the answer before they end.
fn unended() -> Vec<(&'static str, Vec<u8>)> {
    let long = [&b"job 0 3 100\n"[..], &[b' '; 2049]].concat();
    vec![
        ("a bad line", b"jib 0 3 100\n".to_vec()),
        ("an empty line", b"\n".to_vec()),
        ("a line without an end", [b'1'; 40].to_vec()),
        ("low above high", b"job 3 0 100\n".to_vec()),
        ("4,097 values", b"job 0 4096 100\n".to_vec()),
        ("no steps", b"job 0 3 0\n".to_vec()),
        ("1,001 steps", b"job 0 3 1001\n".to_vec()),
        ("a text of 2,049 bytes", long),
    ]
}

/// Inputs at the limits of line, text, rows and moves, each with its last line.
fn limits() -> Vec<(String, Vec<u8>, String)> {
    let mut limits = Vec::new();
    let mut add = |name: &str, line: &str, text: &[u8], last: &str| {
        limits.push((name.to_string(), [line.as_bytes(), b"\n", text].concat(), last.to_string()));
    };
    let padded = |length: usize| {
        let mut text = A.as_bytes().to_vec();
        text.resize(length, b' ');
        text
    };
    let all = "int main() { int a free; return a; }".as_bytes();
    let whole = "whole 2 rows 9 moves";
    add("the paper's", "job 0 3 100", A.as_bytes(), whole);
    add("no values", "job 0 3 100", b"int main() { return 7; }", "whole 1 rows 3 moves");
    add("no text", "job 0 3 100", b"", "refused 8 at 0");
    let unset = b"int main() { int x; return x; }";
    add("nothing to read", "job 0 3 100", unset, "refused 17 at 27");
    let own = b"int main() { int x free 5 .. 6; int y free; return x + y; }";
    add("a pair of its own", "job 0 1 100", own, "whole 4 rows 9 moves");
    let reversed = b"int main() { int x free 6 .. 5; return x; }";
    add("a reversed pair", "job 0 3 100", reversed, "refused 18 at 24");
    let wide = b"int main() { int x free 0 .. 4096; return x; }";
    add("a wide pair", "job 0 3 100", wide, "refused 19 at 24");
    // The shortest line and the longest, with texts of the greatest length and more.
    for (line, last) in
        [("job 0 3 5", whole), ("job -0000000004 -0000000001 0000001000", "whole 4 rows 9 moves")]
    {
        add("2,048 bytes", line, &padded(2_048), last);
        for length in [2_049, 2_050, 4_096, 70_000, 300_000] {
            add("too many bytes", line, &padded(length), "refused 1 at 2048");
        }
    }
    let line = "job -2147483648 -2147483648 0000000100";
    add("the least value", line, all, "whole 1 rows 4 moves");
    add("the greatest value", "job 2147483647 2147483647 0000000100", all, "whole 1 rows 4 moves");
    let line = "job -2147483648 -2147483648 -000000000";
    for length in [2_047, 2_048, 2_049] {
        add("a line of forty bytes", line, &padded(length), "refused 14 at 0");
    }
    // Rows that fill pages, and values around the width of a column.
    for rows in [1, 57, 58, 59, 115, 116, 117, 174] {
        let last = format!("whole {rows} rows {} moves", rows + 3);
        add("full pages", &format!("job 1 {rows} 100"), all, &last);
    }
    add("no rows", "job 0 3 100", b"int main() { fail; }", "whole 0 rows 2 moves");
    for low in [9_999_998, 99_999_998, -1_000_001, -10_000_001, -100_000_001] {
        let line = format!("job {low} {} 100", low + 3);
        add("wide values", &line, all, "whole 4 rows 7 moves");
    }
    let eight = "int main() { int a free; int b free; int c free; int d free; int e free; \
                 int f free; int g free; int h free; return 0 - 2147483647 - 1; }";
    add("eight values", "job 9999999 10000000 100", eight.as_bytes(), "whole 256 rows 268 moves");
    add("4,096 values", "job -2147483648 -2147479553 4", all, "full 1000 rows 1004 moves");
    for (name, line, last) in [
        ("1,000 rows", "job 0 999 100", "whole 1000 rows 1003 moves"),
        ("1,001 rows", "job 0 1000 100", "full 1000 rows 1004 moves"),
        ("4,097 values", "job 0 4096 100", "refused 13 at 0"),
        ("high below low", "job 3 0 100", "refused 12 at 0"),
        ("12 before 14", "job 3 0 0", "refused 12 at 0"),
        ("12 before 13", "job 2147483647 -2147483648 100", "refused 12 at 0"),
        ("13 before 14", "job 0 4096 0", "refused 13 at 0"),
        ("no steps", "job 0 3 0", "refused 14 at 0"),
        ("1,001 steps", "job 0 3 1001", "refused 14 at 0"),
        ("many steps", "job 0 3 2147483647", "refused 14 at 0"),
        ("too many steps", "job 0 3 2147483648", "refused 16 at 0"),
        ("steps below 0", "job 0 3 -1", "refused 16 at 0"),
        ("too small", "job -2147483649 3 100", "refused 16 at 0"),
        ("too large", "job 0 2147483648 100", "refused 16 at 0"),
        ("eleven digits", "job 0 3 00000000100", "refused 16 at 0"),
        ("eleven digits after a minus", "job -00000000001 3 100", "refused 16 at 0"),
        ("three numbers short", "job", "refused 16 at 0"),
        ("one number short", "job 0 3", "refused 16 at 0"),
        ("one number more", "job 0 3 100 1", "refused 16 at 0"),
        ("a blank at the end", "job 0 3 100 ", "refused 16 at 0"),
        ("a blank before", " job 0 3 100", "refused 16 at 0"),
        ("two blanks", "job 0  3 100", "refused 16 at 0"),
        ("a tab", "job 0\t3 100", "refused 16 at 0"),
        ("a return", "job 0 3 100\r", "refused 16 at 0"),
        ("a capital", "Job 0 3 100", "refused 16 at 0"),
        ("another word", "jobs 0 3 100", "refused 16 at 0"),
        ("a plus", "job 0 +3 100", "refused 16 at 0"),
        ("an underscore", "job 1_0 20 100", "refused 16 at 0"),
        ("a lone minus", "job - 3 100", "refused 16 at 0"),
        ("an empty line", "", "refused 16 at 0"),
    ] {
        add(name, line, all, last);
    }
    add("a long line", &"9".repeat(100_000), all, "refused 16 at 0");
    add("a line of blanks", &" ".repeat(5_000), all, "refused 16 at 0");
    // Just the budget's moves, and one more: 999,000 settings and the steps.
    for (fill, ending) in [(986, "whole"), (987, "spent")] {
        let text = format!(
            "int main() {{ int a free; int b free; if (a < 999) {{ {} \
             if (a - b == 500) return a; else fail; }} else fail; }}",
            ";".repeat(fill),
        );
        let last = format!("{ending} 499 rows 1000000 moves");
        add("1,000,000 moves", "job 0 999 1000", text.as_bytes(), &last);
    }
    let deep = format!("int main() {{ return {}1{}; }}", "(".repeat(980), ")".repeat(980));
    add("many brackets", "job 0 3 100", deep.as_bytes(), "refused 5 at 44");
    // No line end: not even of an empty line.
    let mut open: Vec<(String, Vec<u8>, String)> = Vec::new();
    for input in [&b""[..], b"job 0 3 100", &[b'j'; 5_000], &[0; 3_000]] {
        let name = format!("no line end, {} bytes", input.len());
        open.push((name, input.to_vec(), "refused 16 at 0".to_string()));
    }
    limits.extend(open);
    limits
}

fn input(random: &mut Random) -> Vec<u8> {
    let job = generate::job(random);
    let number = |random: &mut Random, value: i64| -> String {
        match random.below(30) {
            0 => format!("{value:010}"),
            1 => format!("0{value}"),
            2 => format!("+{value}"),
            3 => random.between(-2_147_483_650, -2_147_483_646).to_string(),
            4 => random.between(2_147_483_645, 2_147_483_650).to_string(),
            5 => random
                .pick(&["-0", "-", "", "00000000000", "1e3", "--1", "9999999999", "-9999999999"])
                .to_string(),
            _ => value.to_string(),
        }
    };
    let low = number(random, job.low.into());
    let high = number(random, job.high.into());
    let steps = number(random, job.steps.into());
    let mut line = format!("job {low} {high} {steps}");
    if random.chance(60) {
        let place = random.below(line.len() + 1);
        let added = *random.pick(&[&' ', &'\t', &'\r', &'x', &'0', &'-', &'\n']);
        line.insert(place, added);
    }
    let mut input = line.into_bytes();
    if !random.chance(20) {
        input.push(b'\n');
    }
    input.extend(if random.chance(700) { generate::small(random) } else { generate::text(random) });
    if random.chance(10) {
        input.extend(vec![b' '; 200_000]);
    }
    if random.chance(20) {
        input.truncate(random.below(30));
    }
    input
}
