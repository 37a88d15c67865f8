//! The documents against the sources: what they cite has to stand there, and
//! the definitions that have to be believed are counted.
//!
//! Three forms are read. A citation is one name or more in backticks, with
//! commas or "and" between, followed by a path in round brackets: each name is
//! declared in that file. A function is given with its crate in backticks,
//! with two colons between; a must-fail edit with its crate in asterisks, with
//! a slash between.

use std::collections::{BTreeMap, BTreeSet};
use std::path::{Path, PathBuf};

/// The documents whose paths, functions and edits are looked up.
pub const ALL: [&str; 6] = [
    "README.md",
    "docs/ARCHITECTURE.md",
    "docs/CALLING.md",
    "docs/DECISIONS.md",
    "docs/TRUST.md",
    "tests/README.md",
];

pub const TRUST: &str = "docs/TRUST.md";

pub const ARCHITECTURE: &str = "docs/ARCHITECTURE.md";

/// A file of the repository, by its path from the repository's root.
pub fn file(path: &str) -> PathBuf {
    Path::new(env!("CARGO_MANIFEST_DIR")).join("..").join(path)
}

pub fn read(path: &str) -> Option<String> {
    std::fs::read_to_string(file(path)).ok()
}

/// A document that has to be there.
pub fn document(path: &str) -> String {
    read(path).unwrap_or_else(|| panic!("{path} can't be read"))
}

/// The crates of crates.txt, in its order.
pub fn crates() -> Vec<String> {
    let listed = document("crates.txt");
    let lines = listed.lines().filter(|line| !line.starts_with('#'));
    let names = lines.filter_map(|line| line.split_once(':')?.0.split_whitespace().next());
    names.map(str::to_string).collect()
}

// ---- what a document names

/// A name, and the file that it is said to be declared in.
#[derive(Clone, Debug, PartialEq, Eq)]
pub struct Citation {
    pub name: String,
    pub path: String,
}

pub fn citations(line: &str) -> Vec<Citation> {
    let mut found = Vec::new();
    for (open, _) in line.match_indices("(crates/") {
        let Some(size) = line[open..].find(')') else { continue };
        let path = line[open + 1..open + size].to_string();
        let mut names = Vec::new();
        let mut before = line[..open].trim_end();
        while let Some((head, name)) = before.strip_suffix('`').and_then(|s| s.rsplit_once('`')) {
            names.push(Citation { name: name.to_string(), path: path.clone() });
            let head = head.trim_end();
            let Some(rest) = head.strip_suffix(',').or(head.strip_suffix(" and")) else { break };
            before = rest.trim_end();
        }
        found.extend(names.into_iter().rev());
    }
    found
}

/// What stands in backticks, at every second place.
fn quoted(line: &str) -> impl Iterator<Item = &str> {
    line.split('`').skip(1).step_by(2)
}

/// The functions and types that are given as `crate::name`.
pub fn functions(line: &str) -> Vec<String> {
    let plain = |c: char| c.is_ascii_alphanumeric() || c == '_' || c == ':';
    quoted(line)
        .filter(|words| words.contains("::") && words.chars().all(plain))
        .map(str::to_string)
        .collect()
}

/// The must-fail edits that are given as crate/edit in asterisks.
pub fn edits(line: &str) -> Vec<String> {
    let plain = |c: char| c.is_ascii_lowercase() || c.is_ascii_digit() || c == '_' || c == '/';
    line.split('*')
        .skip(1)
        .filter(|words| words.matches('/').count() == 1 && words.chars().all(plain))
        .map(str::to_string)
        .collect()
}

/// The paths of the repository; those with a word in capitals for a name are
/// none.
pub fn paths(line: &str) -> Vec<String> {
    let folders = ["crates/", "tests/", "docs/", "rules/", ".ci/"];
    line.split(|c: char| c.is_whitespace() || "()[]`*|\"".contains(c))
        .map(|word| word.trim_end_matches(['.', ',', ';', ':', '/']))
        .filter(|word| folders.iter().any(|folder| word.starts_with(folder)))
        .filter(|word| !word.contains("NAME") && !word.contains("FILE"))
        .map(str::to_string)
        .collect()
}

// ---- what a source declares

/// The names that a line of definitions or theorems declares: what stands
/// before its colon.
fn declared(line: &str) -> Vec<&str> {
    const WORDS: [&str; 6] = ["pub", "data", "record", "abbrev", "unfoldable", "let"];
    let mut depth = 0;
    let mut start = None;
    let mut names = Vec::new();
    for (at, c) in line.char_indices().chain([(line.len(), ' ')]) {
        let ends = c.is_whitespace() || "(){}".contains(c);
        if let (Some(from), true) = (start, ends) {
            start = None;
            match &line[from..at] {
                ":" if depth == 0 => return names,
                word if depth == 0 && !WORDS.contains(&word) => names.push(word),
                _ => {}
            }
        }
        match c {
            '(' | '{' => depth += 1,
            ')' | '}' => depth -= 1,
            _ if !ends && start.is_none() => start = Some(at),
            _ => {}
        }
    }
    Vec::new()
}

/// Whether a source declares a name: a definition, a theorem, a constructor or
/// a field; in code a function, a type, a constant or a module.
pub fn declares(path: &str, source: &str, name: &str) -> bool {
    let mut lines = source.lines().map(str::trim_start);
    if path.ends_with(".antt") {
        return lines.any(|line| !line.starts_with("--") && declared(line).contains(&name));
    }
    const KINDS: [&str; 5] = ["fn", "struct", "enum", "const", "mod"];
    lines.any(|line| {
        let words: Vec<&str> = line.split(|c: char| !c.is_alphanumeric() && c != '_').collect();
        !line.starts_with("//")
            && words.windows(2).any(|pair| KINDS.contains(&pair[0]) && pair[1] == name)
    })
}

/// The sources of a crate's code, or of a module of these tests.
fn sources(of: &str) -> Vec<PathBuf> {
    let Ok(folder) = std::fs::read_dir(file(&format!("crates/{of}/src"))) else {
        return vec![file(&format!("tests/src/{of}.rs"))];
    };
    folder.filter_map(|entry| Some(entry.ok()?.path())).collect()
}

/// Whether a function or type is there; those of the kit are taken for granted.
pub fn is_function(path: &str) -> bool {
    let parts: Vec<&str> = path.split("::").collect();
    if ["std", "libc", "io"].contains(&parts[0]) {
        return true;
    }
    let sources: Vec<String> =
        sources(parts[0]).iter().filter_map(|path| std::fs::read_to_string(path).ok()).collect();
    parts[1..].iter().all(|name| sources.iter().any(|source| declares(".rt", source, name)))
}

// ---- what has to be believed

/// Definitions that stand together, without a blank line between.
struct Block {
    names: Vec<String>,
    words: BTreeSet<String>,
    lines: usize,
}

/// A file of definitions: what it imports, by name and by the name of a file,
/// and its blocks.
#[derive(Default)]
struct Definitions {
    names: BTreeMap<String, (String, String)>,
    files: BTreeMap<String, String>,
    blocks: Vec<Block>,
}

/// The path of an imported file of definitions of this repository.
fn imported(module: &str) -> Option<String> {
    let mut parts = module.strip_prefix("Rattle.")?.split('.');
    let (name, folder) = (parts.next()?, parts.next()?);
    let path = format!("crates/{name}/{folder}/{}.antt", parts.next()?);
    file(&path).exists().then_some(path)
}

/// `◌∈◌` is written between its sides as `∈`.
fn plain(name: &str) -> &str {
    name.trim_matches('◌')
}

impl Definitions {
    fn import(&mut self, line: &str) {
        let line = line.trim_start_matches("pub ").trim_start_matches("use ");
        let (module, names) = line.split_once(".{").unwrap_or((line, ""));
        let (module, alias) = module.split_once(" as ").unwrap_or((module, ""));
        let Some(path) = imported(module) else { return };
        let last = module.rsplit('.').next().unwrap_or(module);
        self.files.insert(if alias.is_empty() { last } else { alias }.to_string(), path.clone());
        for name in names.trim_end_matches('}').split(',').map(str::trim) {
            let (name, own) = name.split_once(" as ").unwrap_or((name, name));
            self.names.insert(plain(own).to_string(), (path.clone(), plain(name).to_string()));
        }
    }

    fn of(source: &str) -> Definitions {
        let mut read = Definitions::default();
        let mut import = String::new();
        let mut fresh = true;
        let mut fields = false;
        for line in source.lines() {
            let text = line.trim();
            if !import.is_empty() || text.starts_with("use ") || text.starts_with("pub use ") {
                import.push_str(text);
                if !import.ends_with('{') && !import.ends_with(',') {
                    read.import(&std::mem::take(&mut import));
                }
                continue;
            }
            if text.is_empty() {
                fresh = true;
                continue;
            }
            if text.starts_with("--") {
                continue;
            }
            if std::mem::take(&mut fresh) {
                read.blocks.push(Block { names: vec![], words: BTreeSet::new(), lines: 0 });
                fields = false;
            }
            let block = read.blocks.last_mut().expect("a block was begun");
            block.lines += 1;
            // the fields of a record are reached by way of the record
            if !fields {
                block.names.extend(declared(text).into_iter().map(|name| plain(name).to_string()));
            }
            fields = fields || text.contains("record ") && text.ends_with(" where");
            let marks = |c: char| c.is_whitespace() || "(){}[];,".contains(c);
            let words = text.split(marks).filter(|word| !word.starts_with('.'));
            block.words.extend(words.map(|word| word.trim_end_matches('.').to_string()));
        }
        read
    }

    /// The files and names that a word of a block may stand for.
    fn meant(&self, own: &str, word: &str) -> Vec<(String, String)> {
        let (first, rest) = word.split_once('.').unwrap_or((word, ""));
        if let (Some(path), false) = (self.files.get(first), rest.is_empty()) {
            let name = rest.split('.').next().unwrap_or(rest);
            return vec![(path.clone(), name.to_string())];
        }
        let mut meant = vec![(own.to_string(), first.to_string())];
        meant.extend(self.names.get(first).cloned());
        meant
    }
}

/// A row of the table of what has to be believed: what for, and the names that
/// it begins with.
pub struct Group {
    pub name: String,
    pub begins: Vec<Citation>,
    /// The lines that the document says.
    pub said: String,
}

pub const GROUPS: &str = "| for | begins with | lines |";

pub const FILES: &str = "| file | lines | first needed for |";

pub const LEFT_OUT: &str = "Left out";

/// The rows of the table with this head.
pub fn rows<'a>(text: &'a str, head: &str) -> Vec<&'a str> {
    let after = text.lines().skip_while(|line| *line != head).skip(2);
    after.take_while(|line| line.starts_with('|')).collect()
}

pub fn groups(text: &str) -> Vec<Group> {
    let group = |row: &&str| {
        let cells: Vec<&str> = row.trim_matches('|').split('|').map(str::trim).collect();
        let [name, begins, said] = cells[..] else { panic!("three cells: {row}") };
        Group { name: name.to_string(), begins: citations(begins), said: said.to_string() }
    };
    rows(text, GROUPS).iter().map(group).filter(|group| group.name != "all").collect()
}

/// The lines that are needed, by group and file: each definition that the
/// group's names lead to, once, without comments, blank lines and imports.
pub struct Counted {
    pub groups: Vec<(String, usize)>,
    pub files: BTreeMap<(usize, String), usize>,
}

impl Counted {
    pub fn all(&self) -> usize {
        self.groups.iter().map(|(_, lines)| lines).sum()
    }

    /// The rows of the table of files, as the document has them.
    pub fn rows(&self) -> Vec<String> {
        let row = |((group, path), lines): (&(usize, String), &usize)| {
            format!("| {path} | {lines} | {} |", self.groups[*group].0)
        };
        self.files.iter().map(row).collect()
    }
}

pub fn count(groups: &[Group], left_out: &[Citation]) -> Counted {
    let mut read: BTreeMap<String, Definitions> = BTreeMap::new();
    let mut reached: BTreeSet<(String, usize)> = BTreeSet::new();
    let mut counted = Counted { groups: Vec::new(), files: BTreeMap::new() };
    for (number, group) in groups.iter().enumerate() {
        let mut open: Vec<(String, String)> =
            group.begins.iter().map(|c| (c.path.clone(), plain(&c.name).to_string())).collect();
        let mut sum = 0;
        while let Some((path, name)) = open.pop() {
            if left_out.iter().any(|c| c.path == path && c.name == name) {
                continue;
            }
            let source =
                read.entry(path.clone()).or_insert_with(|| Definitions::of(&document(&path)));
            for (at, block) in source.blocks.iter().enumerate() {
                if !block.names.contains(&name) || !reached.insert((path.clone(), at)) {
                    continue;
                }
                sum += block.lines;
                *counted.files.entry((number, path.clone())).or_default() += block.lines;
                open.extend(block.words.iter().flat_map(|word| source.meant(&path, word)));
            }
        }
        counted.groups.push((group.name.clone(), sum));
    }
    counted
}

/// 1234 as 1,234.
pub fn figure(number: usize) -> String {
    match number {
        0..=999 => number.to_string(),
        _ => format!("{},{:03}", number / 1000, number % 1000),
    }
}

/// What docs/TRUST.md, with this text, says has to be believed, counted.
pub fn believed(text: &str) -> Counted {
    let left_out: Vec<Citation> =
        text.lines().filter(|line| line.starts_with(LEFT_OUT)).flat_map(citations).collect();
    count(&groups(text), &left_out)
}

/// The same text with the figures as they are counted.
pub fn with_figures(text: &str) -> String {
    let counted = believed(text);
    let mut lines: Vec<String> = Vec::new();
    let mut table = "";
    for line in text.lines() {
        if !line.starts_with('|') {
            table = "";
        } else if line == GROUPS || line == FILES {
            table = line;
        }
        let is_row = line.starts_with("| ") && line != table;
        match table {
            GROUPS if is_row => {
                let cells: Vec<&str> = line.split('|').collect();
                let name = cells[1].trim();
                let lines_of = counted.groups.iter().find(|(group, _)| group == name);
                let number = lines_of.map_or(counted.all(), |(_, lines)| *lines);
                lines.push(format!("|{}|{}| {} |", cells[1], cells[2], figure(number)));
            }
            FILES if is_row => {}
            FILES if line.starts_with("|-") => {
                lines.push(line.to_string());
                lines.extend(counted.rows());
            }
            _ => lines.push(line.to_string()),
        }
    }
    lines.join("\n") + "\n"
}
