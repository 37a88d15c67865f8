//! The documents against the sources: every path, definition, function and
//! must-fail edit that they name is there, every crate stands on the map, and
//! the lines to be believed are as many as is said.

use reference::documents::*;

/// Every line of these documents, with where it stands.
fn lines(documents: &[&str]) -> Vec<(String, String)> {
    let of = |path: &&str| -> Vec<(String, String)> {
        let text = document(path);
        let place = |at: usize| format!("{path}:{}", at + 1);
        text.lines().enumerate().map(|(at, line)| (place(at), line.to_string())).collect()
    };
    documents.iter().flat_map(of).collect()
}

/// None of the things that `find` finds in the documents is wrong; there are
/// at least so many of them, so that a form that is lost shows.
fn none_wrong<T>(
    documents: &[&str],
    least: usize,
    find: impl Fn(&str) -> Vec<T>,
    wrong: impl Fn(&T) -> Option<String>,
) {
    let mut count = 0;
    let mut failures = Vec::new();
    for (place, line) in lines(documents) {
        for thing in find(&line) {
            count += 1;
            failures.extend(wrong(&thing).map(|what| format!("{place}: {what}")));
        }
    }
    assert!(failures.is_empty(), "\n{}", failures.join("\n"));
    assert!(count >= least, "{count} found, of at least {least}");
}

#[test]
fn paths_are_there() {
    let wrong = |path: &String| (!file(path).exists()).then(|| format!("no {path}"));
    none_wrong(&ALL, 200, paths, wrong);
}

#[test]
fn cited_names_are_declared() {
    let wrong = |cited: &Citation| {
        let source = read(&cited.path).unwrap_or_default();
        let missing = !declares(&cited.path, &source, &cited.name);
        missing.then(|| format!("no `{}` in {}", cited.name, cited.path))
    };
    none_wrong(&[TRUST, ARCHITECTURE], 250, citations, wrong);
}

#[test]
fn functions_are_there() {
    let wrong = |path: &String| (!is_function(path)).then(|| format!("no {path}"));
    none_wrong(&ALL, 40, functions, wrong);
}

#[test]
fn edits_are_there() {
    let wrong = |edit: &String| {
        let (holder, name) = edit.split_once('/').expect("crate/edit");
        let path = format!("crates/{holder}/must-fail/{name}.edit");
        (!file(&path).exists()).then(|| format!("no {path}"))
    };
    none_wrong(&[TRUST, ARCHITECTURE], 60, edits, wrong);
}

/// The map has a row for each crate, in the order of crates.txt.
#[test]
fn every_crate_is_on_the_map() {
    let map = document(ARCHITECTURE);
    let rows = map.lines().filter_map(|line| line.strip_prefix("| `")?.split_once("` | "));
    let named: Vec<String> = rows.map(|(name, _)| name.to_string()).collect();
    assert_eq!(named, crates());
}

/// `cargo run --bin trust -- --write` in tests/ makes the figures anew.
#[test]
fn believed_lines_are_counted() {
    let text = document(TRUST);
    let anew = with_figures(&text);
    let changed: Vec<&str> = anew.lines().filter(|line| !text.contains(line)).collect();
    assert!(text == anew, "counted:\n{}", changed.join("\n"));
    assert!(groups(&text).len() == 12 && believed(&text).all() > 1000);
}

/// The checks above can fail.
#[test]
fn what_is_not_there_is_missed() {
    let line = "holds by `one`, `two` and `three` (crates/list/specs/List.antt), see *list/none*";
    let names: Vec<String> = citations(line).into_iter().map(|cited| cited.name).collect();
    assert_eq!(names, ["one", "two", "three"]);
    assert_eq!(edits(line), ["list/none"]);
    assert_eq!(paths(line), ["crates/list/specs/List.antt"]);
    let path = "crates/list/specs/List.antt";
    let source = document(path);
    assert!(declares(path, &source, "list") && declares(path, &source, "refused"));
    // a name that is only used there, a word of a comment, and none at all
    for name in ["checked", "search", "listing"] {
        assert!(!declares(path, &source, name), "{name}");
    }
    assert!(is_function("list::list") && !is_function("list::listing"));
    assert!(!is_function("listing::run"));
}
