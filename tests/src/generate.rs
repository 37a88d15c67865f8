//! Random texts and jobs.
//!
//! Most texts are programs written along the grammar with names that can be
//! seen; some have mistakes of the kinds that the rules refuse, some are
//! damaged, and some stand at a limit or one past it.

use crate::random::Random;
use crate::search::{Job, LEAST_SCRATCH};

/// A random text of any kind.
pub fn text(random: &mut Random) -> Vec<u8> {
    match random.below(100) {
        0..=49 => valid(random),
        50..=63 => {
            let mistakes = random.pick(&[&5, &20, &60]);
            let tokens = program(random, *mistakes);
            layout(random, &tokens)
        }
        64..=74 => assignments(random),
        75..=85 => damaged(random),
        86..=96 => at_limits(random),
        _ => noise(random),
    }
}

/// A random program without mistakes (it may still be too long or too deep).
pub fn valid(random: &mut Random) -> Vec<u8> {
    let tokens = program(random, 0);
    layout(random, &tokens)
}

/// A random program whose search is small.
pub fn small(random: &mut Random) -> Vec<u8> {
    let functions = 1 + random.below(3);
    let tokens = Writer::new(random, 0, 9).program(functions);
    layout(random, &tokens)
}

fn program(random: &mut Random, mistakes: usize) -> Vec<String> {
    let functions = *random.pick(&[&1usize, &1, &2, &2, &3, &4, &7, &16]);
    let room = *random.pick(&[&6usize, &12, &20, &30, &45]) / functions;
    Writer::new(random, mistakes, room).program(functions)
}

/// The ends of a pair; a wrong one is reversed or too wide, or just not.
fn own_pair(random: &mut Random, wrong: bool) -> (i64, i64) {
    let greatest = 2_147_483_647;
    if wrong {
        let low = random.between(-3, 3);
        return match random.below(4) {
            0 => (low, low - random.between(0, 3)),
            1 => (low, low + random.between(4_094, 4_098)),
            2 => (greatest, -greatest),
            _ => (-greatest, greatest),
        };
    }
    match random.below(20) {
        0 => (greatest - random.between(0, 3), greatest),
        1 => (-greatest, random.between(0, 3) - greatest),
        2 => {
            let low = random.between(-5_000, 5_000);
            (low, low + random.between(0, 40))
        }
        _ => {
            let low = random.between(-3, 4);
            (low, low + random.between(0, 3))
        }
    }
}

/// Tokens with blanks between them, at least where two words would join.
fn layout(random: &mut Random, tokens: &[String]) -> Vec<u8> {
    let style = random.below(4);
    let mut text = Vec::new();
    let wordlike = |byte: &u8| byte.is_ascii_alphanumeric() || *byte == b'_';
    for token in tokens {
        let bytes = token.as_bytes();
        let joins = text.last().is_some_and(wordlike) && bytes.first().is_some_and(wordlike);
        let blank = match style {
            0 => joins,
            1 => true,
            _ => joins || random.chance(300),
        };
        if blank && !text.is_empty() {
            text.push(if style == 3 {
                *random.pick(&[&b' ', &b'\n', &b'\t', &b'\r'])
            } else {
                b' '
            });
        }
        text.extend_from_slice(bytes);
    }
    if random.chance(100) {
        text.extend(vec![b' '; random.below(4)]);
    }
    text
}

/// Writes a program as tokens and keeps account of the names that can be seen.
struct Writer<'r> {
    random: &'r mut Random,
    /// How often, of a thousand, a place for a mistake gets one.
    mistakes: usize,
    /// How many more statements are to be written in this function.
    room: usize,
    room_each: usize,
    tokens: Vec<String>,
    functions: Vec<(String, usize)>,
    present: usize,
    /// The names that can be seen, and whether they hold something for sure.
    blocks: Vec<Vec<(String, bool)>>,
    /// The counters of the loops around, which are seldom assigned to.
    counters: Vec<String>,
    declared: usize,
    frees: usize,
    /// Whether the next statement is an arm without braces, which is just one.
    alone: bool,
}

const NAMES: [&str; 12] = ["a", "b", "c", "d", "x", "y", "i", "n", "k_1", "freed", "main", "f"];
const FUNCTION_NAMES: [&str; 10] = ["f", "g", "h", "pow", "log", "a", "x", "int_", "iff", "F2"];
const NUMBERS: [&str; 14] = [
    "4",
    "5",
    "7",
    "10",
    "003",
    "46341",
    "65536",
    "65535",
    "1000000",
    "1073741824",
    "2147483646",
    "2147483647",
    "40",
    "100",
];

impl Writer<'_> {
    fn new(random: &mut Random, mistakes: usize, room: usize) -> Writer<'_> {
        Writer {
            random,
            mistakes,
            room,
            room_each: room,
            tokens: Vec::new(),
            functions: Vec::new(),
            present: 0,
            blocks: Vec::new(),
            counters: Vec::new(),
            declared: 0,
            frees: 0,
            alone: false,
        }
    }

    fn program(mut self, count: usize) -> Vec<String> {
        let main = self.random.below(count);
        for number in 0..count {
            let mut name = if number == main { "main".to_string() } else { self.function_name() };
            let mut parameters = if number == main { 0 } else { self.random.below(4) };
            if self.random.chance(30) && number != main {
                parameters = 4;
            }
            if self.mistake() {
                name = self.function_name();
            }
            if self.mistake() {
                parameters = self.random.below(6);
            }
            self.functions.push((name, parameters));
        }
        for number in 0..count {
            self.present = number;
            self.room = self.room_each;
            self.function();
        }
        self.tokens
    }

    fn function_name(&mut self) -> String {
        loop {
            let mut name = self.random.pick(&FUNCTION_NAMES).to_string();
            if self.random.chance(300) {
                name.push_str(&self.random.below(20).to_string());
            }
            let taken = self.functions.iter().any(|(other, _)| *other == name);
            if !taken || self.mistake() {
                return name;
            }
        }
    }

    fn mistake(&mut self) -> bool {
        self.mistakes > 0 && self.random.chance(self.mistakes)
    }

    fn put(&mut self, tokens: &[&str]) {
        self.tokens.extend(tokens.iter().map(|token| token.to_string()));
    }

    fn put_one_of(&mut self, from: &[&str]) {
        let token = self.random.pick(from).to_string();
        self.tokens.push(token);
    }

    /// Declares a name, if possible one that can't be seen yet.
    fn new_name(&mut self, holds: bool) -> String {
        self.declared += 1;
        let visible: Vec<String> = self.names(|_| true);
        let mut name = self.random.pick(&NAMES).to_string();
        while visible.contains(&name) && !self.mistake() {
            name = format!("{}{}", self.random.pick(&NAMES), self.random.below(30));
        }
        self.blocks.last_mut().expect("a block is open").push((name.clone(), holds));
        name
    }

    /// The names that can be seen and hold something, or not.
    fn names(&self, wanted: impl Fn(bool) -> bool) -> Vec<String> {
        let visible = self.blocks.iter().flatten();
        visible.filter(|(_, holds)| wanted(*holds)).map(|(name, _)| name.clone()).collect()
    }

    /// A name to be given a value.
    fn known_name(&mut self) -> Option<String> {
        if self.mistake() {
            return Some(self.random.pick(&NAMES).to_string());
        }
        self.one_of(self.names(|_| true))
    }

    /// A name to be read: one that holds something, but for a mistake.
    fn held_name(&mut self) -> Option<String> {
        if self.mistake() {
            return self.known_name();
        }
        self.one_of(self.names(|holds| holds))
    }

    fn one_of(&mut self, names: Vec<String>) -> Option<String> {
        (!names.is_empty()).then(|| names[self.random.below(names.len())].clone())
    }

    /// From here to the end of the present block the name holds something, if
    /// it is the block's own.
    fn holds_now(&mut self, name: &str) {
        let block = self.blocks.last_mut().expect("a block is open");
        for (own, holds) in block {
            *holds |= own == name;
        }
    }

    fn function(&mut self) {
        let (name, parameters) = self.functions[self.present].clone();
        self.blocks = vec![Vec::new()];
        self.declared = 0;
        self.frees = 0;
        self.put(&["int", &name, "("]);
        for number in 0..parameters {
            if number > 0 {
                self.put(&[","]);
            }
            let name = self.new_name(true);
            self.put(&["int", &name]);
        }
        self.put(&[")", "{"]);
        self.blocks.push(Vec::new());
        // The main function begins with free numbers, most of the time.
        if name == "main" {
            for _ in 0..*self.random.pick(&[&0usize, &1, &1, &1, &2, &2, &3]) {
                self.declare(true);
            }
        }
        self.body();
        if self.mistake() {
            self.put_one_of(&[";", "return", "}", "5"]);
        }
        self.put(&["}"]);
    }

    fn declare(&mut self, free: bool) {
        if self.declared >= 16 && !self.mistake() {
            self.put(&[";"]);
            return;
        }
        let name = self.new_name(free);
        self.put(&["int", &name]);
        if free {
            self.frees += 1;
            self.put(&["free"]);
            self.pair();
        }
        self.put(&[";"]);
    }

    /// Three of ten free numbers have a pair of their own, mostly a small one.
    fn pair(&mut self) {
        if !self.random.chance(300) {
            return;
        }
        let wrong = self.mistakes > 0 && self.random.chance(100);
        let (low, high) = own_pair(self.random, wrong);
        self.end_of_pair(low);
        if !self.mistake() {
            self.put(&[".."]);
        }
        self.end_of_pair(high);
    }

    fn end_of_pair(&mut self, end: i64) {
        if end < 0 || end == 0 && self.random.chance(100) {
            self.put(&["-"]);
        }
        self.put(&[&end.unsigned_abs().to_string()]);
        if self.mistake() {
            self.put_one_of(&["-", "1", "a", "..", "+"]);
        }
    }

    /// A declaration; nine of ten are given a value at once, the others perhaps
    /// later.
    fn declare_given(&mut self, depth: usize) {
        self.declare(false);
        let newest = self.blocks.last().and_then(|block| block.last()).cloned();
        let Some((name, false)) = newest else { return };
        if self.random.chance(900) {
            if !self.mistake() {
                self.give(&name, depth);
            }
            self.holds_now(&name);
        }
    }

    /// A statement after which the name holds something, whichever way is
    /// gone; a mistake leaves a way open.
    fn give(&mut self, name: &str, depth: usize) {
        match self.random.below(20) {
            0..=1 if depth < 6 => {
                self.put(&["if", "("]);
                self.put_one_of(&["true", "true", "true||0<1", "true&&true"]);
                self.put(&[")"]);
                self.arm_giving(name, depth);
                self.put(&["else"]);
                self.arm(depth);
            }
            2..=5 if depth < 6 => {
                self.put(&["if", "("]);
                self.condition();
                self.put(&[")"]);
                self.arm_giving(name, depth);
                self.put(&["else"]);
                self.arm_giving(name, depth);
            }
            6 if depth < 6 => {
                self.put(&["{"]);
                self.blocks.push(Vec::new());
                self.statement(depth + 1);
                self.give(name, depth + 1);
                self.blocks.pop();
                self.put(&["}"]);
            }
            _ => {
                self.put(&[name, "="]);
                self.expression(2);
                self.put(&[";"]);
            }
        }
    }

    fn arm_giving(&mut self, name: &str, depth: usize) {
        self.blocks.push(Vec::new());
        match self.random.below(20) {
            _ if self.mistake() => self.lone_statement(depth + 1),
            0 => self.put(&["fail", ";"]),
            1 => {
                self.put(&["return"]);
                self.expression(1);
                self.put(&[";"]);
            }
            _ => self.give(name, depth + 1),
        }
        self.blocks.pop();
    }

    /// Statements of which the last can't reach its end.
    fn body(&mut self) {
        while self.room > 0 && !self.random.chance(120) {
            self.statement(1);
        }
        if !self.mistake() {
            self.last_statement(1);
        }
    }

    fn last_statement(&mut self, depth: usize) {
        if depth < 5 && self.random.chance(400) {
            if self.random.chance(250) {
                self.put(&["{"]);
                self.blocks.push(Vec::new());
                for _ in 0..self.random.below(3) {
                    self.statement(depth + 1);
                }
                self.last_statement(depth + 1);
                self.blocks.pop();
                self.put(&["}"]);
                return;
            }
            self.put(&["if", "("]);
            self.condition();
            self.put(&[")"]);
            self.last_arm(depth);
            self.put(&["else"]);
            self.last_arm(depth);
        } else if self.random.chance(100) {
            self.put(&["fail", ";"]);
        } else {
            self.put(&["return"]);
            self.expression(2);
            self.put(&[";"]);
        }
    }

    fn last_arm(&mut self, depth: usize) {
        self.blocks.push(Vec::new());
        self.last_statement(depth + 1);
        self.blocks.pop();
    }

    fn statement(&mut self, depth: usize) {
        let alone = std::mem::take(&mut self.alone);
        self.room = self.room.saturating_sub(1);
        let deep = depth > 6 || self.room == 0;
        match self.random.below(100) {
            0..=2 => self.put(&[";"]),
            15..=24 if self.frees < 3 || self.random.chance(150) => self.declare(true),
            3..=24 if alone => self.declare(false),
            3..=24 => self.declare_given(depth),
            25..=52 => self.assign(),
            53..=57 => {
                self.expression(2);
                self.put(&[";"]);
            }
            58..=64 if !deep => self.braces(depth),
            65..=84 if !deep => {
                self.put(&["if", "("]);
                self.condition();
                self.put(&[")"]);
                self.arm(depth);
                if !self.mistake() {
                    self.put(&["else"]);
                }
                self.arm(depth);
            }
            85..=95 if !deep => self.while_loop(depth),
            96 => {
                self.put(&["return"]);
                self.expression(1);
                self.put(&[";"]);
            }
            97 if self.random.chance(300) => self.put(&["fail", ";"]),
            _ => self.assign(),
        }
    }

    fn assign(&mut self) {
        let Some(name) = self.known_name() else {
            self.declare(false);
            return;
        };
        if self.counters.contains(&name) && !self.random.chance(50) {
            self.put(&[";"]);
            return;
        }
        self.put(&[&name, "="]);
        self.expression(2);
        self.put(&[";"]);
        self.holds_now(&name);
    }

    fn braces(&mut self, depth: usize) {
        self.put(&["{"]);
        self.blocks.push(Vec::new());
        for _ in 0..self.random.below(4) {
            self.statement(depth + 1);
        }
        self.blocks.pop();
        self.put(&["}"]);
    }

    /// An if arm or a loop's body: a block, braces or not.
    fn arm(&mut self, depth: usize) {
        if self.random.chance(500) {
            self.braces(depth + 1);
        } else {
            self.blocks.push(Vec::new());
            self.lone_statement(depth + 1);
            self.blocks.pop();
        }
    }

    fn lone_statement(&mut self, depth: usize) {
        self.alone = true;
        self.statement(depth);
    }

    fn while_loop(&mut self, depth: usize) {
        if self.random.chance(850) && self.declared < 16 {
            // A counted loop, in a block of its own with its counter.
            self.put(&["{"]);
            self.blocks.push(Vec::new());
            let name = self.new_name(true);
            let start = self.random.below(3).to_string();
            self.put(&["int", &name, ";", &name, "=", &start, ";", "while", "(", &name]);
            self.put_one_of(&["<", "<", "<=", "<=", "!="]);
            if self.random.chance(800) {
                let bound = self.random.below(4).to_string();
                let bound = self.held_name().filter(|other| *other != name).unwrap_or(bound);
                self.put(&[&bound]);
            } else {
                self.expression(1);
            }
            self.put(&[")", "{"]);
            self.blocks.push(Vec::new());
            self.counters.push(name.clone());
            for _ in 0..self.random.below(3) {
                self.statement(depth + 2);
            }
            self.declare_and_use(depth + 2);
            self.counters.pop();
            self.blocks.pop();
            self.put(&[&name, "=", &name, "+", "1", ";", "}", "}"]);
            self.blocks.pop();
        } else {
            self.put(&["while", "("]);
            self.condition();
            self.put(&[")"]);
            self.arm(depth);
        }
    }

    /// Sometimes, within a loop: a number that holds nothing again in every
    /// turn, is given a value on every way and then read.
    fn declare_and_use(&mut self, depth: usize) {
        if self.declared < 16 && self.random.chance(300) {
            let outer = self.held_name();
            let name = self.new_name(false);
            self.put(&["int", &name, ";"]);
            self.give(&name, depth);
            self.holds_now(&name);
            if let Some(outer) = outer {
                self.put(&[&outer, "=", &outer, "+", &name, ";"]);
            }
        }
    }

    fn condition(&mut self) {
        self.test();
        while self.random.chance(250) {
            self.put_one_of(&["&&", "||"]);
            self.test();
        }
    }

    fn test(&mut self) {
        match self.random.below(20) {
            0 => self.put(&["true"]),
            1 => self.put(&["false"]),
            2..=7 => {
                // A name beside a small number narrows, either way round.
                let small = self.random.between(-2, 4).to_string();
                let name = self.held_name().unwrap_or_else(|| "1".to_string());
                let comparison = self.comparison();
                if self.random.chance(700) {
                    self.put(&[&name, comparison]);
                    self.number(&small);
                } else {
                    self.number(&small);
                    self.put(&[comparison, &name]);
                }
            }
            _ => {
                self.expression(2);
                let comparison = self.comparison();
                self.put(&[comparison]);
                self.expression(2);
            }
        }
    }

    fn comparison(&mut self) -> &'static str {
        self.random.pick(&["<", "<=", ">", ">=", "==", "!="])
    }

    fn number(&mut self, number: &str) {
        let digits = number.strip_prefix('-');
        let grouped = grouped(self.random, digits.unwrap_or(number), 100);
        match digits {
            Some(_) => self.put(&["-", &grouped]),
            None => self.put(&[&grouped]),
        }
    }

    fn expression(&mut self, size: usize) {
        self.operand(size);
        while self.random.chance(150 * size.min(3)) {
            self.put_one_of(&["+", "+", "-", "-", "*"]);
            self.operand(size.saturating_sub(1));
        }
    }

    fn operand(&mut self, size: usize) {
        match self.random.below(100) {
            0..=19 => {
                let number = self.random.between(-3, 3).to_string();
                self.number(&number);
            }
            20..=23 => {
                if self.random.chance(300) {
                    self.put(&["-"]);
                }
                self.put_one_of(&NUMBERS);
            }
            24..=31 if size > 0 => {
                self.put(&["("]);
                self.expression(size - 1);
                self.put(&[")"]);
            }
            32..=41 if size > 0 && (!self.onwards().is_empty() || self.random.chance(60)) => {
                self.call(size.saturating_sub(1));
            }
            _ => match self.held_name() {
                Some(name) => self.put(&[&name]),
                None => self.put_one_of(&["0", "1", "2"]),
            },
        }
    }

    /// From main all others, from another one those after it.
    fn onwards(&self) -> Vec<usize> {
        let main = |number: usize| self.functions[number].0 == "main";
        let first = if main(self.present) { 0 } else { self.present + 1 };
        (first..self.functions.len()).filter(|number| !main(*number)).collect()
    }

    fn call(&mut self, size: usize) {
        // Calls lead mostly onwards, so that few programs call without end.
        let onwards = self.onwards();
        let number = if !onwards.is_empty() && !self.random.chance(50) {
            onwards[self.random.below(onwards.len())]
        } else {
            self.random.below(self.functions.len())
        };
        let (mut name, mut parameters) = self.functions[number].clone();
        if self.mistake() {
            name = self.random.pick(&FUNCTION_NAMES).to_string();
        }
        if self.mistake() {
            parameters = self.random.below(6);
        }
        self.put(&[&name, "("]);
        for number in 0..parameters {
            if number > 0 {
                self.put(&[","]);
            }
            self.expression(size);
        }
        self.put(&[")"]);
    }
}

/// Programs in which few variables are given values and read on many ways:
/// about half of them read one that may hold nothing.
fn assignments(random: &mut Random) -> Vec<u8> {
    let mut text = String::new();
    let functions = [("f", 1), ("main", 0), ("g", 2)];
    let first = random.below(2);
    for (name, parameters) in &functions[first..2 + random.below(2)] {
        let mut ways = Ways { random, names: Vec::new(), text: String::new() };
        let parameters: Vec<String> = (0..*parameters).map(|n| format!("p{n}")).collect();
        let declared: Vec<String> = parameters.iter().map(|name| format!("int {name}")).collect();
        ways.names.extend(parameters);
        ways.declare();
        for _ in 0..1 + ways.random.below(5) {
            ways.statement(1);
        }
        ways.text.push_str("return ");
        ways.read();
        text.push_str(&format!("int {name}({}) {{ {}; }} ", declared.join(", "), ways.text));
    }
    text.into_bytes()
}

struct Ways<'r> {
    random: &'r mut Random,
    /// The names that can be seen.
    names: Vec<String>,
    text: String,
}

impl Ways<'_> {
    fn name(&mut self) -> String {
        match self.names.len() {
            0 => "0".to_string(),
            count => self.names[self.random.below(count)].clone(),
        }
    }

    fn declare(&mut self) {
        let fresh = ["x", "y", "z"].into_iter().find(|name| !self.names.iter().any(|n| n == name));
        let Some(name) = fresh else { return };
        self.names.push(name.to_string());
        let free = self.random.pick(&["", "", "", " free"]);
        self.text.push_str(&format!("int {name}{free}; "));
        if self.random.chance(400) {
            self.text.push_str(&format!("{name} = 1; "));
        }
    }

    /// An expression, which reads a variable in one of three.
    fn read(&mut self) {
        let name = self.name();
        match self.random.below(30) {
            0..=6 => self.text.push_str(&name),
            7 => self.text.push_str(&format!("(1 + {name})")),
            8 => self.text.push_str(&format!("2 - {name} * 1")),
            9 => self.text.push_str("main()"),
            _ => self.text.push_str(self.random.pick(&["1", "7", "1 + 2"])),
        }
    }

    fn condition(&mut self) {
        loop {
            match self.random.below(6) {
                0 => self.text.push_str("true"),
                1 => self.text.push_str("false"),
                _ => {
                    self.read();
                    self.text.push_str(self.random.pick(&[" < ", " == ", " >= "]));
                    self.read();
                }
            }
            match self.random.below(10) {
                0..=2 => self.text.push_str(" && "),
                3..=5 => self.text.push_str(" || "),
                _ => return,
            }
        }
    }

    /// A block with braces or without.
    fn block(&mut self, depth: usize) {
        let outside = self.names.len();
        if self.random.chance(400) {
            self.text.push_str("{ ");
            for _ in 0..self.random.below(4) {
                self.statement(depth + 2);
            }
            self.text.push_str("} ");
        } else {
            self.statement(depth + 1);
        }
        self.names.truncate(outside);
    }

    fn statement(&mut self, depth: usize) {
        match self.random.below(if depth > 7 { 13 } else { 20 }) {
            0..=6 => {
                let name = self.names.iter().rev().find(|_| self.random.chance(600)).cloned();
                let Some(name) = name else { return self.text.push_str("; ") };
                self.text.push_str(&format!("{name} = "));
                self.read();
                self.text.push_str("; ");
            }
            7 if depth == 1 => self.declare(),
            8 => {
                self.read();
                self.text.push_str("; ");
            }
            9 => self.text.push_str("fail; "),
            10 => {
                self.text.push_str("return ");
                self.read();
                self.text.push_str("; ");
            }
            13..=17 => {
                self.text.push_str("if (");
                self.condition();
                self.text.push_str(") ");
                self.block(depth);
                self.text.push_str("else ");
                self.block(depth);
            }
            18 => {
                self.text.push_str("while (");
                self.condition();
                self.text.push_str(") ");
                self.block(depth);
            }
            19 => self.declares(depth),
            _ => self.text.push_str("; "),
        }
    }

    /// A block that declares.
    fn declares(&mut self, depth: usize) {
        let outside = self.names.len();
        self.text.push_str("{ ");
        self.declare();
        for _ in 0..self.random.below(3) {
            self.statement(depth + 1);
        }
        self.text.push_str("} ");
        self.names.truncate(outside);
    }
}

const SPARE_TOKENS: [&str; 37] = [
    "(", ")", "{", "}", ";", ",", "=", "<", ">", "<=", ">=", "==", "!=", "&&", "||", "+", "-", "*",
    "int", "free", "if", "else", "while", "return", "fail", "true", "false", "a", "f", "main", "0",
    "7", "12ab", "!", "..", "..", ".",
];

fn damaged(random: &mut Random) -> Vec<u8> {
    let mut tokens = program(random, 0);
    for _ in 0..1 + random.below(3) {
        let place = random.below(tokens.len());
        match random.below(6) {
            0 => {
                tokens.remove(place);
            }
            1 => tokens.insert(place, random.pick(&SPARE_TOKENS).to_string()),
            2 => tokens[place] = random.pick(&SPARE_TOKENS).to_string(),
            3 => {
                let other = random.below(tokens.len());
                tokens.swap(place, other);
            }
            4 => tokens.truncate(place),
            _ => tokens.insert(place, tokens[place].clone()),
        }
        if tokens.is_empty() {
            return Vec::new();
        }
    }
    let mut text = layout(random, &tokens);
    if random.chance(300) && !text.is_empty() {
        for _ in 0..1 + random.below(3) {
            let place = random.below(text.len());
            match random.below(4) {
                0 => text[place] = random.below(256) as u8,
                1 => text.insert(
                    place,
                    *random.pick(&[&b'!', &b'&', &b'|', &b'_', &b'=', &b'-', &b'.']),
                ),
                2 => text.insert(place, random.below(256) as u8),
                _ => {
                    text.remove(place);
                    if text.is_empty() {
                        return text;
                    }
                }
            }
        }
    }
    text
}

fn noise(random: &mut Random) -> Vec<u8> {
    let length = random.below(60);
    match random.below(3) {
        0 => (0..length).map(|_| random.below(256) as u8).collect(),
        1 => {
            let bytes = b"ab12__ \t\n\r(){};,=<>!&|+-*.if";
            (0..length).map(|_| bytes[random.below(bytes.len())]).collect()
        }
        _ => {
            let tokens: Vec<String> =
                (0..length).map(|_| random.pick(&SPARE_TOKENS).to_string()).collect();
            layout(random, &tokens)
        }
    }
}

/// Texts at a limit and around it.
fn at_limits(random: &mut Random) -> Vec<u8> {
    match random.below(13) {
        0 => long_name(random),
        1 => large_number(random),
        2 | 3 => deep(random),
        4 => many_declarations(random),
        5 => many_parameters(random),
        6 => many_functions(random),
        7 => mains(random),
        8 => ends(random),
        9 => shadows(random),
        10 => pairs(random),
        _ => padded(random),
    }
}

fn long_name(random: &mut Random) -> Vec<u8> {
    let name = "abcdefgh_jklmnopqrst";
    let name = &name[..15 + random.below(4)];
    let other = "variable_of_main_";
    let other = &other[..15 + random.below(3)];
    format!("int {name}() {{ return 1; }} int main() {{ int {other}; {other} = 1; return {other} + {name}(); }}")
        .into_bytes()
}

fn large_number(random: &mut Random) -> Vec<u8> {
    let number = match random.below(6) {
        0 => "2147483647".to_string(),
        1 => "2147483648".to_string(),
        2 => "0".repeat(random.below(40)) + "2147483647",
        3 => "9".repeat(1 + random.below(40)),
        4 => "18446744073709551616".to_string(),
        _ => random.between(2_147_483_640, 2_147_483_655).to_string(),
    };
    let often = *random.pick(&[&0, &100, &500]);
    let number = grouped(random, &number, often);
    let number = misplaced(random, &number);
    let minus = random.pick(&["", "-", "- "]);
    format!("int main() {{ return {minus}{number}; }}").into_bytes()
}

/// A number with underscores between its digits, so often in a thousand places, some of them several in a row.
fn grouped(random: &mut Random, digits: &str, often: usize) -> String {
    let mut number = String::new();
    for (place, digit) in digits.chars().enumerate() {
        if place > 0 && random.chance(often) {
            number += random.pick(&["_", "_", "__", "___"]);
        }
        number.push(digit);
    }
    number
}

/// Sometimes an underscore that stands before a number, behind it, or with a blank or a name after it.
fn misplaced(random: &mut Random, number: &str) -> String {
    match random.below(12) {
        0 => format!("_{number}"),
        1 => format!("{number}_"),
        2 => format!("{number}_ 2"),
        3 => format!("{number}_a"),
        _ => number.to_string(),
    }
}

/// Mixed nesting to a depth of about 24.
fn deep(random: &mut Random) -> Vec<u8> {
    let levels = 20 + random.below(8);
    let statements = if random.chance(300) { levels } else { random.below(levels) };
    let mut open = String::new();
    let mut close = String::new();
    for _ in 0..statements {
        let (before, after) = *random.pick(&[
            &("{ ", "}"),
            &("while (false) ", ""),
            &("if (true) ", "else fail; "),
            &("if (a < 1) ; else ", ""),
            &("while (a < 0) { ", "}"),
        ]);
        open.push_str(before);
        close.insert_str(0, after);
    }
    let mut inner_open = String::new();
    let mut inner_close = String::new();
    for _ in statements..levels {
        let (before, after) = *random.pick(&[
            &("(", ")"),
            &("f(", ")"),
            &("1 + f(", ") * 2"),
            &("2 - (", ")"),
            &("g(1, ", ")"),
            &("g(", ", (3))"),
        ]);
        inner_open.push_str(before);
        inner_close.insert_str(0, after);
    }
    let inner = random.pick(&["a", "-1", "f(1)", "(2)", "1 + 2"]);
    let given = random.pick(&[" free", " free", "; a = 0", ""]);
    let form = match random.below(4) {
        0 => ("return ", ";"),
        1 => ("a = ", ";"),
        2 => ("if (1 < ", ") ; else ;"),
        _ => ("", ";"),
    };
    format!(
        "int f(int p) {{ return p; }} int g(int p, int q) {{ return p; }} int main() {{ int a{given}; \
         {open}{}{inner_open}{inner}{inner_close}{}{close} return 0; }}",
        form.0, form.1
    )
    .into_bytes()
}

fn many_declarations(random: &mut Random) -> Vec<u8> {
    let parameters = random.below(5);
    let count = if random.chance(800) { 13 + random.below(5) } else { random.below(120) };
    let mut text = String::from("int main() { return 0; } int f(");
    for number in 0..parameters {
        text.push_str(if number > 0 { ", " } else { "" });
        text.push_str(&format!("int p{number}"));
    }
    text.push_str(") { int u; ");
    for number in parameters..count {
        let free = random.pick(&["", " free"]);
        let (before, after) = *random.pick(&[&("", ""), &("{ ", " }"), &("while (0 < 1) ", "")]);
        text.push_str(&format!("{before}int v{number}{free};{after} "));
    }
    text.push_str(random.pick(&[
        "return 1; }",
        "return 1; }",
        "u = 1; return u; }",
        "return u; }",
    ]));
    text.into_bytes()
}

fn many_parameters(random: &mut Random) -> Vec<u8> {
    let parameters = 3 + random.below(16);
    let arguments = if random.chance(700) { parameters } else { 3 + random.below(4) };
    let declared: Vec<String> = (0..parameters).map(|n| format!("int p{n}")).collect();
    let given: Vec<String> = (0..arguments).map(|n| n.to_string()).collect();
    format!(
        "int main() {{ return f({}); }} int f({}) {{ return p0; }}",
        given.join(","),
        declared.join(",")
    )
    .into_bytes()
}

fn many_functions(random: &mut Random) -> Vec<u8> {
    let count = 15 + random.below(4);
    let main = random.below(count);
    let mut text = String::new();
    for number in 0..count {
        let name = if number == main { "main".to_string() } else { format!("f{number}") };
        let called = random.below(count);
        let called = if called == main { "main".to_string() } else { format!("f{called}") };
        text.push_str(&format!("int {name}() {{ return {called}(); }}\n"));
    }
    text.into_bytes()
}

fn mains(random: &mut Random) -> Vec<u8> {
    let parts = [
        "int main() { return 1; }",
        "int main(int a) { return a; }",
        "int main(int a, int b) { return main(b); }",
        "int f() { return main(); }",
        "int f(int main) { return main; }",
        "int g() { return main(1); }",
        "int g() { return f(); }",
        "int Main() { return 0; }",
        "",
    ];
    (0..1 + random.below(3)).map(|_| random.pick(&parts)).collect::<Vec<_>>().join(" ").into_bytes()
}

fn ends(random: &mut Random) -> Vec<u8> {
    fn end(random: &mut Random, depth: usize) -> String {
        match random.below(if depth > 4 { 6 } else { 10 }) {
            0 | 1 => "return 1;".to_string(),
            2 => "fail;".to_string(),
            3 => random.pick(&["while (true) ;", ";", "{ }", "1;", "return 1; ;"]).to_string(),
            4 | 5 => "{ return 1; }".to_string(),
            6 | 7 => {
                format!("if (true) {} else {}", end(random, depth + 1), end(random, depth + 1))
            }
            8 => format!("{{ ; {} }}", end(random, depth + 1)),
            _ => format!("while (true) {}", end(random, depth + 1)),
        }
    }
    let first = end(random, 0);
    let second = end(random, 0);
    format!("int f() {{ {first} }} int main() {{ {second} }}").into_bytes()
}

/// Declarations and uses of few names in many blocks.
fn shadows(random: &mut Random) -> Vec<u8> {
    let mut text = String::from(random.pick(&[
        "int main() { ",
        "int main() { return 0; } int f(int a) { ",
        "int main() { return 0; } int a(int b, int c) { ",
    ]));
    let mut open = 0;
    for _ in 0..random.below(12) {
        let name = random.pick(&["a", "b", "c"]);
        match random.below(9) {
            0 => text.push_str(&format!("int {name}; ")),
            1 => text.push_str(&format!("{name} = 1; ")),
            2 => text.push_str(&format!("if (true) int {name}; else int {name} free; ")),
            3 => text.push_str(&format!("while (false) int {name}; ")),
            4 | 5 => {
                text.push_str("{ ");
                open += 1;
            }
            6 => text.push_str(&format!("{{ int {name}; }} ")),
            7 => text.push_str(&format!("{{ {name} = {name}; }} ")),
            _ if open > 0 => {
                text.push_str("} ");
                open -= 1;
            }
            _ => {}
        }
    }
    text.push_str(&"} ".repeat(open));
    text.push_str("return 1; }");
    text.into_bytes()
}

/// Own pairs at their limits, several in a text, some in functions that are not
/// called, and now and then with too many declarations beside them.
fn pairs(random: &mut Random) -> Vec<u8> {
    let mut text = String::new();
    for name in ["f", "main"] {
        text.push_str(&format!("int {name}() {{ "));
        let count = if random.chance(100) { 15 + random.below(4) } else { 1 + random.below(3) };
        for number in 0..count {
            let wrong = random.chance(400);
            let (low, high) = own_pair(random, wrong);
            let dots = random.pick(&["..", " .. ", ".. ", " ..", "...", ".", " . . "]);
            let dots = if random.chance(900) { " .. " } else { dots };
            text.push_str(&format!("int v{number} free {low}{dots}{high}; "));
        }
        text.push_str("return v0; } ");
    }
    text.into_bytes()
}

/// A text of about 2,048 bytes.
fn padded(random: &mut Random) -> Vec<u8> {
    let length = 2046 + random.below(5);
    let tokens = program(random, 0);
    let mut text = layout(random, &tokens);
    let filler = *random.pick(&[&b' ', &b'\n', &b';', &b'a', &b'9', &b'(', &b'!', &b'{']);
    let place = if random.chance(500) { text.len() } else { random.below(text.len() + 1) };
    while text.len() < length {
        text.insert(place, filler);
    }
    text
}

/// A random job, its budget not yet held down.
pub fn job(random: &mut Random) -> Job {
    let (low, high) = window(random);
    let steps = match random.below(20) {
        0..=2 => 1 + random.below(30) as u32,
        3..=9 => 1 + random.below(150) as u32,
        10..=13 => 1 + random.below(1000) as u32,
        14..=18 => 1000,
        _ => *random.pick(&[&0, &1, &2, &999, &1001, &u32::MAX, &0x8000_0000]),
    };
    let skip = match random.below(10) {
        0..=5 => 0,
        6..=7 => random.below(4) as u32,
        8 => random.below(40) as u32,
        _ => *random.pick(&[&u32::MAX, &1000, &0x8000_0000]),
    };
    let budget = match random.below(10) {
        0 => random.below(100) as u32,
        1 => random.below(1000) as u32,
        2..=3 => random.below(20_000) as u32,
        _ => u32::MAX - random.below(3) as u32,
    };
    let rows_len = match random.below(10) {
        0..=1 => random.below(26),
        2..=3 => random.below(120),
        _ => 10 * random.below(500) + random.below(10),
    };
    let scratch_len = match random.below(40) {
        0 => *random.pick(&[&0, &1, &(LEAST_SCRATCH / 2), &(LEAST_SCRATCH - 1)]),
        1..=3 => LEAST_SCRATCH + random.below(100),
        _ => LEAST_SCRATCH,
    };
    Job { low, high, steps, skip, budget, rows_len, scratch_len }
}

/// A job whose runs can all be tried, with a budget that mostly suffices.
pub fn small_job(random: &mut Random) -> Job {
    let low = random.between(-2, 2) as i32;
    let (low, high) = match random.below(12) {
        0 => (i32::MAX - 2, i32::MAX),
        1 => (i32::MIN, i32::MIN + 2),
        2 => (low, low + random.below(40) as i32),
        _ => (low, low + random.below(5) as i32),
    };
    let most_steps = *random.pick(&[&30, &100, &1000]);
    Job {
        low,
        high,
        steps: 1 + random.below(most_steps) as u32,
        skip: 0,
        budget: 100_000,
        rows_len: 100_000,
        scratch_len: LEAST_SCRATCH,
    }
}

fn window(random: &mut Random) -> (i32, i32) {
    let (low, values) = match random.below(20) {
        0..=10 => (random.between(-3, 2), random.between(1, 5)),
        11..=13 => (random.between(-10, 5), random.between(1, 20)),
        14 => (random.between(-100, 100), random.between(1, 1000)),
        15 => (random.between(-5000, 10), random.between(4090, 4098)),
        16 => (i64::from(i32::MIN), random.between(1, 4098)),
        17 => {
            let values = random.between(1, 4098);
            (i64::from(i32::MAX) - values + 1, values)
        }
        18 => (random.between(i64::from(i32::MIN), i64::from(i32::MAX) - 5), random.between(1, 4)),
        _ => {
            let any = |random: &mut Random| random.between(i32::MIN.into(), i32::MAX.into()) as i32;
            return (any(random), any(random));
        }
    };
    (low as i32, (low + values - 1) as i32)
}
