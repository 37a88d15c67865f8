//! The search: paths with open values, windows, choices and moves; the
//! operation list.
//!
//! A choice that is taken back is gone back to by working the path again from
//! the start of main with the outcomes of the choices before it, which is what
//! the paper says must then stand. Steps that were made before are no moves.

use crate::parser::{Comparison, Operation};
use crate::plans::{row, Row};
use crate::program::{
    compare, work, Condition, Expression, Operand, Program, Statement, Term, Test,
};
use crate::run::{DEEPEST_CALL, MOST_FREE, NOTHING};
use crate::Refusal;

pub const LEAST_SCRATCH: usize = 16_384;
pub const MOST_VALUES: i64 = 4_096;
pub const MOST_STEPS: u32 = 1_000;
pub const ROW_WORDS: usize = 10;

#[derive(Clone, Copy, PartialEq, Eq, Debug)]
pub struct Job {
    pub low: i32,
    pub high: i32,
    pub steps: u32,
    pub skip: u32,
    pub budget: u32,
    /// The lengths of the lent slices in words.
    pub rows_len: usize,
    pub scratch_len: usize,
}

#[derive(Clone, Copy, PartialEq, Eq, Debug)]
pub enum Ending {
    Whole,
    Cut,
    Full,
    Spent,
}

#[derive(Clone, PartialEq, Eq, Debug)]
pub struct Listing {
    pub rows: Vec<Row>,
    pub moves: u32,
    pub ending: Ending,
}

/// The operation list.
pub fn list(text: &[u8], job: &Job) -> Result<Listing, Refusal> {
    Ok(search(&accepted(text, job)?, job))
}

/// The program of the text, unless list refuses it or the job.
pub fn accepted(text: &[u8], job: &Job) -> Result<Program, Refusal> {
    if job.scratch_len < LEAST_SCRATCH {
        return Err((11, 0));
    }
    if job.low > job.high {
        return Err((12, 0));
    }
    if i64::from(job.high) - i64::from(job.low) + 1 > MOST_VALUES {
        return Err((13, 0));
    }
    if job.steps == 0 || job.steps > MOST_STEPS {
        return Err((14, 0));
    }
    Program::of(text)
}

/// The search of a job that is not refused.
pub fn search(program: &Program, job: &Job) -> Listing {
    let mut search = Search {
        path: Path::new(program, job),
        skip: job.skip,
        room: job.rows_len / ROW_WORDS,
        rows: Vec::new(),
        cut_found: false,
    };
    let ending = match search.go() {
        Ok(()) if search.cut_found => Ending::Cut,
        Ok(()) => Ending::Whole,
        Err(early) => early,
    };
    Listing { rows: search.rows, moves: search.path.moves, ending }
}

struct Search<'a> {
    path: Path<'a>,
    /// Rows still to be skipped.
    skip: u32,
    room: usize,
    rows: Vec<Row>,
    cut_found: bool,
}

impl Search<'_> {
    /// `Err` where the search is stopped early.
    fn go(&mut self) -> Result<(), Ending> {
        loop {
            match self.path.work() {
                PathEnd::Returned(result) => self.rows_of(result)?,
                PathEnd::Failed => {}
                PathEnd::Cut => self.look_for_cut()?,
                PathEnd::Spent => return Err(Ending::Spent),
            }
            let choices = &mut self.path.choices;
            while choices.last() == Some(&false) {
                choices.pop();
            }
            if choices.is_empty() {
                return Ok(());
            }
            self.path.make_move()?;
            *self.path.choices.last_mut().expect("there is a choice") = false;
        }
    }

    /// At the run's return: all settings are tried.
    fn rows_of(&mut self, result: Value) -> Result<(), Ending> {
        let mut setting = Some(self.path.first_setting());
        while let Some(values) = setting {
            self.path.make_move()?;
            if self.path.meets_tests(&values) {
                let result = self.path.value_in(result, &values);
                self.found(row(result, &values))?;
            }
            setting = self.path.next_setting(values);
        }
        Ok(())
    }

    fn found(&mut self, row: Row) -> Result<(), Ending> {
        if self.skip > 0 {
            self.skip -= 1;
        } else if self.rows.len() < self.room {
            self.rows.push(row);
        } else {
            return Err(Ending::Full);
        }
        Ok(())
    }

    /// At a cut: settings are tried until one meets the tests, unless a cut
    /// run has been found before.
    fn look_for_cut(&mut self) -> Result<(), Ending> {
        let mut setting = Some(self.path.first_setting());
        while !self.cut_found {
            let Some(values) = setting else { break };
            self.path.make_move()?;
            self.cut_found = self.path.meets_tests(&values);
            setting = self.path.next_setting(values);
        }
        Ok(())
    }
}

/// A value of the program: known, or open with the expression it stands for,
/// which is a node of the path's table.
#[derive(Clone, Copy, PartialEq, Eq, Debug)]
enum Value {
    Known(i32),
    Open(usize),
}

#[derive(Clone, Copy, Debug)]
enum Node {
    /// The free variable of this number.
    Free(usize),
    Operation(Operation, Value, Value),
}

/// A comparison that was not decided by what is known, with its outcome.
#[derive(Clone, Copy, Debug)]
struct Made {
    left: Value,
    comparison: Comparison,
    right: Value,
    outcome: bool,
}

#[derive(Clone, Copy, PartialEq, Eq, Debug)]
struct Range {
    low: i64,
    high: i64,
}

const ALL: Range = Range { low: i32::MIN as i64, high: i32::MAX as i64 };

impl Range {
    fn one(number: i32) -> Range {
        Range { low: i64::from(number), high: i64::from(number) }
    }

    fn single(self) -> Option<i64> {
        (self.low == self.high).then_some(self.low)
    }

    fn of_operation(operation: Operation, l: Range, r: Range) -> Range {
        let exact = match operation {
            Operation::Add => Range { low: l.low + r.low, high: l.high + r.high },
            Operation::Subtract => Range { low: l.low - r.high, high: l.high - r.low },
            Operation::Multiply => {
                let corners = [l.low * r.low, l.low * r.high, l.high * r.low, l.high * r.high];
                Range {
                    low: *corners.iter().min().expect("four corners"),
                    high: *corners.iter().max().expect("four corners"),
                }
            }
        };
        if exact.low < ALL.low || exact.high > ALL.high {
            ALL
        } else {
            exact
        }
    }

    /// The outcome of the comparison if the two ranges decide it.
    fn decide(comparison: Comparison, l: Range, r: Range) -> Option<bool> {
        let (always, never) = match comparison {
            Comparison::Less => (l.high < r.low, l.low >= r.high),
            Comparison::LessEqual => (l.high <= r.low, l.low > r.high),
            Comparison::Greater => (l.low > r.high, l.high <= r.low),
            Comparison::GreaterEqual => (l.low >= r.high, l.high < r.low),
            Comparison::Equal => (l.single().is_some() && l == r, l.high < r.low || r.high < l.low),
            Comparison::NotEqual => {
                (l.high < r.low || r.high < l.low, l.single().is_some() && l == r)
            }
        };
        match (always, never) {
            (true, _) => Some(true),
            (_, true) => Some(false),
            _ => None,
        }
    }

    /// The window narrowed by: what it holds stands so to `number`.
    fn narrow(self, comparison: Comparison, number: i64) -> Range {
        let Range { low, high } = self;
        match comparison {
            Comparison::Less => Range { low, high: high.min(number - 1) },
            Comparison::LessEqual => Range { low, high: high.min(number) },
            Comparison::Greater => Range { low: low.max(number + 1), high },
            Comparison::GreaterEqual => Range { low: low.max(number), high },
            Comparison::Equal => Range { low: low.max(number), high: high.min(number) },
            Comparison::NotEqual if number == low => Range { low: low + 1, high },
            Comparison::NotEqual if number == high => Range { low, high: high - 1 },
            Comparison::NotEqual => self,
        }
    }
}

/// The comparison that holds exactly where this one does not.
fn opposite(comparison: Comparison) -> Comparison {
    match comparison {
        Comparison::Less => Comparison::GreaterEqual,
        Comparison::LessEqual => Comparison::Greater,
        Comparison::Greater => Comparison::LessEqual,
        Comparison::GreaterEqual => Comparison::Less,
        Comparison::Equal => Comparison::NotEqual,
        Comparison::NotEqual => Comparison::Equal,
    }
}

/// The same comparison with its sides changed over.
fn turned(comparison: Comparison) -> Comparison {
    match comparison {
        Comparison::Less => Comparison::Greater,
        Comparison::LessEqual => Comparison::GreaterEqual,
        Comparison::Greater => Comparison::Less,
        Comparison::GreaterEqual => Comparison::LessEqual,
        Comparison::Equal => Comparison::Equal,
        Comparison::NotEqual => Comparison::NotEqual,
    }
}

enum PathEnd {
    Returned(Value),
    Failed,
    Cut,
    Spent,
}

struct Path<'a> {
    program: &'a Program,
    job_window: Range,
    limit: u32,
    budget: u32,
    moves: u32,
    /// The outcomes of the choices; `met` of them have been met in this path,
    /// and the first `again` are worked again.
    choices: Vec<bool>,
    met: usize,
    again: usize,
    steps: u32,
    depth: usize,
    windows: Vec<Range>,
    nodes: Vec<Node>,
    tests: Vec<Made>,
    /// The cells of the functions that have been entered and not left; one
    /// holds nothing from its declaration to its first value.
    cells: Vec<Option<Value>>,
    /// Ranges of nodes worked under the windows of this number.
    ranges: Vec<(u32, Range)>,
    windows_number: u32,
    /// The nodes' values in the setting that is tried.
    node_values: Vec<i32>,
}

/// `Err` carries the end of the whole path.
type Worked<T> = Result<T, PathEnd>;

impl From<PathEnd> for Ending {
    fn from(end: PathEnd) -> Ending {
        match end {
            PathEnd::Spent => Ending::Spent,
            _ => unreachable!("only a spent budget ends the search from within"),
        }
    }
}

impl<'a> Path<'a> {
    fn new(program: &'a Program, job: &Job) -> Path<'a> {
        Path {
            program,
            job_window: Range { low: i64::from(job.low), high: i64::from(job.high) },
            limit: job.steps,
            budget: job.budget,
            moves: 0,
            choices: Vec::new(),
            met: 0,
            again: 0,
            steps: 0,
            depth: 0,
            windows: Vec::new(),
            nodes: Vec::new(),
            tests: Vec::new(),
            cells: Vec::new(),
            ranges: Vec::new(),
            windows_number: 0,
            node_values: Vec::new(),
        }
    }

    /// A move, unless the budget has been made.
    fn make_move(&mut self) -> Worked<()> {
        if self.moves == self.budget {
            return Err(PathEnd::Spent);
        }
        self.moves += 1;
        Ok(())
    }

    /// Works one path from the start of main with the outcomes given so far.
    fn work(&mut self) -> PathEnd {
        self.met = 0;
        self.again = self.choices.len();
        self.steps = 0;
        self.depth = 0;
        self.windows.clear();
        self.nodes.clear();
        self.tests.clear();
        self.cells.clear();
        self.ranges.clear();
        self.windows_number = 0;
        match self.call(self.program.main, &[]) {
            Ok(result) => PathEnd::Returned(result),
            Err(end) => end,
        }
    }

    fn step(&mut self) -> Worked<()> {
        if self.steps == self.limit {
            return Err(PathEnd::Cut);
        }
        if self.met >= self.again {
            self.make_move()?;
        }
        self.steps += 1;
        Ok(())
    }

    fn call(&mut self, function: usize, arguments: &[Value]) -> Worked<Value> {
        if self.depth == DEEPEST_CALL {
            return Err(PathEnd::Cut);
        }
        self.step()?;
        self.depth += 1;
        let body = &self.program.bodies[function];
        let base = self.cells.len();
        self.cells.extend(arguments.iter().copied().map(Some));
        self.cells.resize(base + body.variables, None);
        let result = self.statements(&body.statements, base)?;
        self.cells.truncate(base);
        self.depth -= 1;
        Ok(result.expect("a body can't reach its end"))
    }

    /// Statements one after the other; the result, if one of them returned.
    /// `base` is where the cells of the present function begin.
    fn statements(&mut self, list: &[Statement], base: usize) -> Worked<Option<Value>> {
        for statement in list {
            if let Some(result) = self.statement(statement, base)? {
                return Ok(Some(result));
            }
        }
        Ok(None)
    }

    fn statement(&mut self, statement: &Statement, base: usize) -> Worked<Option<Value>> {
        if let Statement::DeclareFree(..) = statement {
            if self.windows.len() == MOST_FREE {
                return Err(PathEnd::Cut);
            }
        }
        self.step()?;
        match statement {
            Statement::Empty => {}
            Statement::Declare(variable) => self.cells[base + variable] = None,
            Statement::DeclareFree(variable, pair) => {
                let unknown = self.node(Node::Free(self.windows.len()));
                let own = |(low, high): (i32, i32)| Range { low: low.into(), high: high.into() };
                self.windows.push(pair.map_or(self.job_window, own));
                self.cells[base + variable] = Some(unknown);
            }
            Statement::Assign(variable, e) => {
                self.cells[base + variable] = Some(self.expression(e, base)?);
            }
            Statement::Work(e) => {
                self.expression(e, base)?;
            }
            Statement::Braces(inner) => return self.statements(inner, base),
            Statement::If(condition, yes, no) => {
                let arm = if self.condition(condition, base)? { yes } else { no };
                return self.statement(arm, base);
            }
            Statement::While(condition, body) => {
                while self.condition(condition, base)? {
                    if let Some(result) = self.statement(body, base)? {
                        return Ok(Some(result));
                    }
                    // The condition is worked again.
                    self.step()?;
                }
            }
            Statement::Return(e) => return Ok(Some(self.expression(e, base)?)),
            Statement::Fail => return Err(PathEnd::Failed),
        }
        Ok(None)
    }

    fn condition(&mut self, condition: &Condition, base: usize) -> Worked<bool> {
        for tests in &condition.0 {
            let mut all = true;
            for test in tests {
                if !self.test(test, base)? {
                    all = false;
                    break;
                }
            }
            if all {
                return Ok(true);
            }
        }
        Ok(false)
    }

    fn test(&mut self, test: &Test, base: usize) -> Worked<bool> {
        match test {
            Test::Fixed(truth) => Ok(*truth),
            Test::Compare(left, comparison, right) => {
                let left = self.expression(left, base)?;
                let right = self.expression(right, base)?;
                self.step()?;
                Ok(self.compared(left, *comparison, right))
            }
        }
    }

    /// The outcome of a comparison: decided, or chosen.
    fn compared(&mut self, left: Value, comparison: Comparison, right: Value) -> bool {
        if let (Value::Known(left), Value::Known(right)) = (left, right) {
            return compare(comparison, left, right);
        }
        let left_range = self.range(left);
        let right_range = self.range(right);
        let decided = Range::decide(comparison, left_range, right_range);
        let outcome = decided.unwrap_or_else(|| self.choose());
        self.tests.push(Made { left, comparison, right, outcome });
        let holds = if outcome { comparison } else { opposite(comparison) };
        self.narrow(left, holds, right_range);
        self.narrow(right, turned(holds), left_range);
        outcome
    }

    /// The outcome of the next choice: true when it is first made.
    fn choose(&mut self) -> bool {
        if self.met == self.choices.len() {
            self.choices.push(true);
        }
        self.met += 1;
        self.choices[self.met - 1]
    }

    /// Narrows a window, if this side is just a free variable and the range of
    /// the other side is one number.
    fn narrow(&mut self, side: Value, holds: Comparison, other: Range) {
        let Value::Open(node) = side else { return };
        let Node::Free(variable) = self.nodes[node] else { return };
        let Some(number) = other.single() else { return };
        let window = self.windows[variable];
        let narrowed = window.narrow(holds, number);
        assert!(narrowed.low <= narrowed.high, "a window keeps a value");
        if narrowed != window {
            self.windows[variable] = narrowed;
            self.windows_number += 1;
        }
    }

    fn node(&mut self, node: Node) -> Value {
        self.nodes.push(node);
        self.ranges.push((u32::MAX, ALL));
        Value::Open(self.nodes.len() - 1)
    }

    /// The range of a value under the present windows. Each node is worked
    /// once for as long as the windows stand.
    fn range(&mut self, value: Value) -> Range {
        let node = match value {
            Value::Known(number) => return Range::one(number),
            Value::Open(node) => node,
        };
        let (number, range) = self.ranges[node];
        if number == self.windows_number {
            return range;
        }
        let range = match self.nodes[node] {
            Node::Free(variable) => self.windows[variable],
            Node::Operation(operation, left, right) => {
                let left = self.range(left);
                let right = self.range(right);
                Range::of_operation(operation, left, right)
            }
        };
        self.ranges[node] = (self.windows_number, range);
        range
    }

    fn expression(&mut self, e: &Expression, base: usize) -> Worked<Value> {
        let mut value = self.term(&e.first, base)?;
        for (operation, term) in &e.rest {
            let right = self.term(term, base)?;
            value = self.operated(*operation, value, right)?;
        }
        Ok(value)
    }

    fn term(&mut self, term: &Term, base: usize) -> Worked<Value> {
        let mut value = self.operand(&term.first, base)?;
        for operand in &term.rest {
            let right = self.operand(operand, base)?;
            value = self.operated(Operation::Multiply, value, right)?;
        }
        Ok(value)
    }

    fn operated(&mut self, operation: Operation, left: Value, right: Value) -> Worked<Value> {
        self.step()?;
        Ok(match (left, right) {
            (Value::Known(left), Value::Known(right)) => Value::Known(work(operation, left, right)),
            _ => self.node(Node::Operation(operation, left, right)),
        })
    }

    fn operand(&mut self, operand: &Operand, base: usize) -> Worked<Value> {
        match operand {
            Operand::Number(number) => Ok(Value::Known(*number)),
            Operand::Variable(variable) => Ok(self.cells[base + variable].expect(NOTHING)),
            Operand::Call(function, arguments) => {
                let mut values = [Value::Known(0); crate::rules::MOST_PARAMETERS];
                for (value, argument) in values.iter_mut().zip(arguments) {
                    *value = self.expression(argument, base)?;
                }
                self.call(*function, &values[..arguments.len()])
            }
            Operand::Brackets(inner) => self.expression(inner, base),
        }
    }

    /// The least values of all windows.
    fn first_setting(&self) -> Vec<i32> {
        self.windows.iter().map(|window| window.low as i32).collect()
    }

    /// The next setting, the last variable fastest, each upward.
    fn next_setting(&self, mut values: Vec<i32>) -> Option<Vec<i32>> {
        for (value, window) in values.iter_mut().zip(&self.windows).rev() {
            if i64::from(*value) < window.high {
                *value += 1;
                return Some(values);
            }
            *value = window.low as i32;
        }
        None
    }

    /// Whether the setting meets every test made. The nodes' values are left
    /// for `value_in`.
    fn meets_tests(&mut self, setting: &[i32]) -> bool {
        self.node_values.clear();
        for test in 0..self.tests.len() {
            let Made { left, comparison, right, outcome } = self.tests[test];
            let left = self.value_in(left, setting);
            let right = self.value_in(right, setting);
            if compare(comparison, left, right) != outcome {
                return false;
            }
        }
        true
    }

    /// The value in the setting. A node's operands stand before it in the
    /// table, so the values are worked in the table's order, as far as needed.
    fn value_in(&mut self, value: Value, setting: &[i32]) -> i32 {
        let node = match value {
            Value::Known(number) => return number,
            Value::Open(node) => node,
        };
        while self.node_values.len() <= node {
            let worked = &self.node_values;
            let of = |value: Value| match value {
                Value::Known(number) => number,
                Value::Open(earlier) => worked[earlier],
            };
            let value = match self.nodes[worked.len()] {
                Node::Free(variable) => setting[variable],
                Node::Operation(operation, left, right) => work(operation, of(left), of(right)),
            };
            self.node_values.push(value);
        }
        self.node_values[node]
    }
}
