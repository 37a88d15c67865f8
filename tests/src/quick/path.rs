//! The present path: instruction after instruction, choices noted, and the
//! newest of them taken back without working anything again.

use super::cells::{self, Cells, Value};
use super::code::{Act, Branch, Instruction, Register, Relation};
use super::terms::{self, Terms};
use super::window::Window;
use super::Manner;
use crate::parser::Operation;
use crate::run::{DEEPEST_CALL, MOST_FREE};

/// How a path ends, or stops.
#[derive(Clone, Copy, PartialEq, Eq, Debug)]
pub enum End {
    Returned(Value),
    Failed,
    /// A ninth free declaration or a call too deep was refused.
    Refused,
    /// There was no fuel for a step.
    Empty,
}

/// A comparison that was not decided, as it holds on this path.
#[derive(Clone, Copy, Debug)]
pub struct Test {
    pub holds: Relation,
    pub left: u32,
    pub right: u32,
}

/// Where a path stands, and how many steps it may still make.
#[derive(Clone, Copy, Debug)]
struct Point {
    at: usize,
    /// Where the registers of the running function begin.
    base: usize,
    depth: usize,
    fuel: u32,
}

/// A choice that went true: how it goes on where it goes false.
struct Choice {
    point: Point,
    /// The steps that the path had made.
    steps: u32,
    tests: usize,
    cells: cells::Mark,
    terms: terms::Mark,
}

pub struct Path {
    window: Window,
    /// The steps made up to where the path was begun or gone on with, and
    /// those that it could make from there.
    steps: u32,
    filled: u32,
    point: Point,
    cells: Cells,
    pub terms: Terms,
    pub tests: Vec<Test>,
    choices: Vec<Choice>,
}

impl Path {
    pub fn new(manner: Manner) -> Path {
        Path {
            window: Window { low: 0, high: 0 },
            steps: 0,
            filled: 0,
            point: Point { at: 0, base: 0, depth: 0, fuel: 0 },
            cells: Cells::new(),
            terms: Terms::new(manner),
            tests: Vec::new(),
            choices: Vec::new(),
        }
    }

    /// Stands at the call of main.
    pub fn start(&mut self, window: Window) {
        self.window = window;
        self.steps = 0;
        self.point = Point { at: 0, base: 0, depth: 0, fuel: 0 };
        self.cells.clear();
        self.terms.clear();
        self.tests.clear();
        self.choices.clear();
    }

    pub fn steps(&self) -> u32 {
        self.steps
    }

    pub fn has_choice(&self) -> bool {
        !self.choices.is_empty()
    }

    /// Works the path on with so many steps at most; answers how many were
    /// made, and the end.
    pub fn walk(&mut self, code: &[Instruction], fuel: u32) -> (u32, End) {
        self.filled = fuel;
        self.point.fuel = fuel;
        let (end, left) = self.run(code, self.point);
        self.steps += fuel - left;
        (fuel - left, end)
    }

    fn run(&mut self, code: &[Instruction], mut point: Point) -> (End, u32) {
        loop {
            let Instruction { steps, act } = code[point.at];
            if point.fuel < u32::from(steps) {
                return (End::Empty, 0);
            }
            point.fuel -= u32::from(steps);
            point.at += 1;
            match act {
                Act::Steps => {}
                Act::Load(to, number) => self.set(point, to, Value::known(number)),
                Act::Move(to, from) => self.set(point, to, self.get(point, from)),
                Act::Add(to, left, right) => {
                    self.operate(point, Operation::Add, to, self.both(point, left, right));
                }
                Act::Subtract(to, left, right) => {
                    self.operate(point, Operation::Subtract, to, self.both(point, left, right));
                }
                Act::Multiply(to, left, right) => {
                    self.operate(point, Operation::Multiply, to, self.both(point, left, right));
                }
                Act::AddNumber(to, left, number) => {
                    let sides = (self.get(point, left), Value::known(number));
                    self.operate(point, Operation::Add, to, sides);
                }
                Act::SubtractFrom(to, number, right) => {
                    let sides = (Value::known(number), self.get(point, right));
                    self.operate(point, Operation::Subtract, to, sides);
                }
                Act::MultiplyNumber(to, left, number) => {
                    let sides = (self.get(point, left), Value::known(number));
                    self.operate(point, Operation::Multiply, to, sides);
                }
                Act::Compare(branch, left, right) => {
                    let sides = self.both(point, left, right);
                    self.compare(&mut point, branch, sides);
                }
                Act::CompareNumber(branch, left, number) => {
                    let sides = (self.get(point, left), Value::known(number));
                    self.compare(&mut point, branch, sides);
                }
                Act::Jump(to) => point.at = usize::from(to),
                Act::Free(to, own) => match self.declare(&mut point, to, own) {
                    Ok(()) => {}
                    Err(end) => return (end, point.fuel),
                },
                Act::Call(to, back) => match self.call(&mut point, to.into(), back) {
                    Ok(()) => {}
                    Err(end) => return (end, point.fuel),
                },
                Act::Return(from) => {
                    let value = self.get(point, from);
                    self.give_back(&mut point, value);
                }
                Act::ReturnNumber(number) => self.give_back(&mut point, Value::known(number)),
                Act::Fail => return (End::Failed, point.fuel),
                Act::Finish => return (End::Returned(self.get(point, 0)), point.fuel),
            }
        }
    }

    #[inline(always)]
    fn get(&self, point: Point, register: Register) -> Value {
        self.cells.get(point.base + usize::from(register))
    }

    #[inline(always)]
    fn both(&self, point: Point, left: Register, right: Register) -> (Value, Value) {
        (self.get(point, left), self.get(point, right))
    }

    #[inline(always)]
    fn set(&mut self, point: Point, register: Register, value: Value) {
        self.cells.set(point.base + usize::from(register), value);
    }

    #[inline(always)]
    fn operate(
        &mut self,
        point: Point,
        operation: Operation,
        to: Register,
        (left, right): (Value, Value),
    ) {
        let value = if left.both_known(right) {
            Value::known(worked(operation, left.number(), right.number()))
        } else {
            self.terms.operate(operation, left, right)
        };
        self.set(point, to, value);
    }

    /// A step that is refused at a limit, or for want of fuel.
    #[inline(always)]
    fn step(point: &mut Point, allowed: bool) -> Result<(), End> {
        if !allowed {
            return Err(End::Refused);
        }
        if point.fuel == 0 {
            return Err(End::Empty);
        }
        point.fuel -= 1;
        Ok(())
    }

    fn declare(&mut self, point: &mut Point, to: Register, own: Option<Window>) -> Result<(), End> {
        Path::step(point, self.terms.free < MOST_FREE)?;
        let value = self.terms.declare(own.unwrap_or(self.window));
        self.set(*point, to, value);
        Ok(())
    }

    #[inline(always)]
    fn call(&mut self, point: &mut Point, to: usize, back: Register) -> Result<(), End> {
        Path::step(point, point.depth < DEEPEST_CALL)?;
        self.set(*point, back, Value::way(point.at, point.base));
        point.at = to;
        point.base += usize::from(back) + 1;
        point.depth += 1;
        Ok(())
    }

    #[inline(always)]
    fn give_back(&mut self, point: &mut Point, value: Value) {
        let back = point.base - 1;
        (point.at, point.base) = self.cells.get(back).way_back();
        self.cells.set(back, value);
        point.depth -= 1;
    }

    #[inline(always)]
    fn compare(&mut self, point: &mut Point, branch: Branch, (left, right): (Value, Value)) {
        let outcome = if left.both_known(right) {
            branch.holds.of(left.number(), right.number())
        } else {
            self.compare_open(*point, branch, left, right)
        };
        if outcome == branch.when {
            point.at = usize::from(branch.to);
        }
    }

    /// The outcome: decided, or chosen, true first.
    #[inline(never)]
    fn compare_open(&mut self, point: Point, branch: Branch, left: Value, right: Value) -> bool {
        let left_range = self.terms.range_of(left);
        let right_range = self.terms.range_of(right);
        if let Some(outcome) = left_range.decide(branch.holds, right_range) {
            return outcome;
        }
        let (left, right) = (self.terms.of(left), self.terms.of(right));
        self.terms.need(left);
        self.terms.need(right);
        let at = if branch.when { point.at } else { usize::from(branch.to) };
        self.choices.push(Choice {
            point: Point { at, ..point },
            steps: self.steps + (self.filled - point.fuel),
            tests: self.tests.len(),
            cells: self.cells.mark(point.base + usize::from(branch.held)),
            terms: self.terms.mark(),
        });
        let test = Test { holds: branch.holds, left: left as u32, right: right as u32 };
        self.tests.push(test);
        self.narrow(test, left_range, right_range);
        true
    }

    fn narrow(&mut self, test: Test, left_range: Window, right_range: Window) {
        self.terms.narrow(test.left as usize, test.holds, right_range);
        self.terms.narrow(test.right as usize, test.holds.turned(), left_range);
    }

    /// Takes the newest choice back, which goes false.
    pub fn take_back(&mut self) {
        let choice = self.choices.pop().expect("there is a choice");
        self.cells.back(choice.cells);
        self.terms.back(choice.terms);
        self.point = choice.point;
        self.steps = choice.steps;
        self.tests.truncate(choice.tests + 1);
        let test = &mut self.tests[choice.tests];
        test.holds = test.holds.opposite();
        let test = *test;
        let left_range = self.terms.range(test.left as usize);
        let right_range = self.terms.range(test.right as usize);
        self.narrow(test, left_range, right_range);
    }
}

/// The low 32 bits of the exact result.
#[inline(always)]
pub fn worked(operation: Operation, left: i32, right: i32) -> i32 {
    match operation {
        Operation::Add => left.wrapping_add(right),
        Operation::Subtract => left.wrapping_sub(right),
        Operation::Multiply => left.wrapping_mul(right),
    }
}
