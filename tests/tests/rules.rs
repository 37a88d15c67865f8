//! The lists in `rules/`, worked again by the reference.

use reference::lister::print;
use reference::plans::plans;
use reference::program::Program;
use reference::rule_files::{folder, jobs};
use std::collections::BTreeSet;

#[test]
fn lists_are_right() {
    for job in jobs() {
        assert_eq!(print(&job.input), String::from_utf8_lossy(&job.list), "{}", job.line);
    }
}

/// The rows again from the runs alone, without the search.
#[test]
fn lists_are_the_plan_lists() {
    for job in jobs() {
        let words: Vec<&str> = job.line.split(' ').collect();
        let number = |place: usize| words[place].parse::<i32>().expect("a number");
        let end = job.input.iter().position(|byte| *byte == b'\n').expect("a job line");
        let program = Program::of(&job.input[end + 1..]).expect("accepted");
        let plans = plans(&program, number(1), number(2), number(3) as u32, 400_000);
        let plans = plans.expect("so few runs that they can all be tried");
        let mut lines: Vec<String> = Vec::new();
        for row in &plans.rows {
            let values: String =
                row[2..2 + row[1] as usize].iter().map(|v| format!(" {v}")).collect();
            lines.push(format!("{} :{values}", row[0]));
        }
        let ending = if plans.cut { "cut" } else { "whole" };
        lines.push(format!("{ending} {} rows ", plans.rows.len()));
        let list = String::from_utf8(job.list).expect("plain text");
        assert!(list.starts_with(&lines.join("\n")), "{}", job.line);
    }
}

/// Every rule has a job, every list belongs to one, and each rule has a list
/// of its own name that is whole.
#[test]
fn nothing_is_left_over() {
    let names = |kind: &str| -> BTreeSet<String> {
        let files = std::fs::read_dir(folder()).expect("the folder rules");
        let name = |file: std::fs::DirEntry| file.file_name().into_string().expect("a plain name");
        files.map(|file| name(file.expect("a file"))).filter(|name| name.ends_with(kind)).collect()
    };
    let lines: Vec<String> = jobs().into_iter().map(|job| job.line).collect();
    let column = |place: usize| -> BTreeSet<String> {
        lines.iter().map(|line| line.split(' ').nth(place).expect("five words").into()).collect()
    };
    let rules: BTreeSet<String> = column(0).iter().map(|rule| format!("{rule}.muli")).collect();
    assert_eq!(names(".muli"), rules);
    assert_eq!(names(".txt"), column(4));
    for rule in column(0) {
        let list = std::fs::read_to_string(folder().join(format!("{rule}.txt"))).expect("its list");
        assert!(list.lines().last().expect("a line").starts_with("whole "), "{rule}");
    }
}

/// The first page shows the sample's command and list.
#[test]
fn readme_shows_the_sample() {
    let readme = std::fs::read_to_string(folder().join("../README.md")).expect("the README");
    let read = |name: &str| std::fs::read_to_string(folder().join(name)).expect("a file");
    let job =
        read("JOBS").lines().find(|line| line.starts_with("sample ")).expect("a job").to_string();
    let words: Vec<&str> = job.split(' ').collect();
    let command = format!("\n    ./plans rules/sample.muli {}\n", words[1..4].join(" "));
    assert!(readme.contains(&command), "{command}");
    let list: String = read("sample.txt").lines().map(|line| format!("    {line}\n")).collect();
    assert!(readme.contains(&format!("\n\n{list}\n")), "{list}");
}
