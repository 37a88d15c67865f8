//! An accepted text with its names resolved: a variable is the number of its
//! declaration within its function (parameters first), a call the number of
//! the function.

use crate::parser::{self, Comparison, Function, Operation, StatementKind};
use crate::rules::accepted;
use crate::Refusal;

#[derive(Debug)]
pub struct Program {
    pub bodies: Vec<Body>,
    pub main: usize,
}

#[derive(Debug)]
pub struct Body {
    pub statements: Vec<Statement>,
    /// How many declarations the function has, parameters counted.
    pub variables: usize,
}

#[derive(Debug)]
pub enum Statement {
    Empty,
    Declare(usize),
    /// With its own pair, low and high, if it has one.
    DeclareFree(usize, Option<(i32, i32)>),
    Assign(usize, Expression),
    Work(Expression),
    Braces(Vec<Statement>),
    If(Condition, Box<Statement>, Box<Statement>),
    While(Condition, Box<Statement>),
    Return(Expression),
    Fail,
}

#[derive(Debug)]
pub struct Expression {
    pub first: Term,
    pub rest: Vec<(Operation, Term)>,
}

#[derive(Debug)]
pub struct Term {
    pub first: Operand,
    pub rest: Vec<Operand>,
}

#[derive(Debug)]
pub enum Operand {
    Number(i32),
    Variable(usize),
    Call(usize, Vec<Expression>),
    Brackets(Box<Expression>),
}

#[derive(Debug)]
pub struct Condition(pub Vec<Vec<Test>>);

#[derive(Debug)]
pub enum Test {
    Fixed(bool),
    Compare(Expression, Comparison, Expression),
}

impl Program {
    pub fn of(text: &[u8]) -> Result<Program, Refusal> {
        let functions = accepted(text)?;
        let bodies = functions.iter().map(|f| body(&functions, f)).collect();
        Ok(Program { bodies, main: number_of(&functions, "main") })
    }
}

fn number_of(functions: &[Function], name: &str) -> usize {
    functions.iter().position(|f| f.name.text == name).expect("every name is found")
}

fn body(functions: &[Function], function: &Function) -> Body {
    let mut names = Names { functions, visible: Vec::new(), declared: 0 };
    for parameter in &function.parameters {
        names.declare(parameter);
    }
    let statements = names.block(&function.body);
    Body { statements, variables: names.declared }
}

struct Names<'a> {
    functions: &'a [Function],
    /// The names that can be seen, with their numbers.
    visible: Vec<(String, usize)>,
    declared: usize,
}

impl Names<'_> {
    fn declare(&mut self, name: &parser::Name) -> usize {
        let number = self.declared;
        self.declared += 1;
        self.visible.push((name.text.clone(), number));
        number
    }

    fn number(&self, name: &parser::Name) -> usize {
        let found = self.visible.iter().rev().find(|(text, _)| *text == name.text);
        found.expect("every name is found").1
    }

    fn block(&mut self, statements: &[parser::Statement]) -> Vec<Statement> {
        let outside = self.visible.len();
        let resolved = statements.iter().map(|s| self.statement(s)).collect();
        self.visible.truncate(outside);
        resolved
    }

    /// An arm or a loop's body, which is a block of its own.
    fn arm(&mut self, statement: &parser::Statement) -> Box<Statement> {
        let outside = self.visible.len();
        let resolved = self.statement(statement);
        self.visible.truncate(outside);
        Box::new(resolved)
    }

    fn statement(&mut self, statement: &parser::Statement) -> Statement {
        match &statement.kind {
            StatementKind::Empty => Statement::Empty,
            StatementKind::Declare(name) => Statement::Declare(self.declare(name)),
            StatementKind::DeclareFree(name, pair) => {
                let pair = pair.map(|pair| (pair.low, pair.high));
                Statement::DeclareFree(self.declare(name), pair)
            }
            StatementKind::Assign(name, e) => {
                Statement::Assign(self.number(name), self.expression(e))
            }
            StatementKind::Work(e) => Statement::Work(self.expression(e)),
            StatementKind::Braces(inner) => Statement::Braces(self.block(inner)),
            StatementKind::If(condition, yes, no) => {
                let condition = self.condition(condition);
                let yes = self.arm(yes);
                Statement::If(condition, yes, self.arm(no))
            }
            StatementKind::While(condition, body) => {
                let condition = self.condition(condition);
                Statement::While(condition, self.arm(body))
            }
            StatementKind::Return(e) => Statement::Return(self.expression(e)),
            StatementKind::Fail => Statement::Fail,
        }
    }

    fn condition(&mut self, condition: &parser::Condition) -> Condition {
        let tests = |tests: &Vec<parser::Test>| tests.iter().map(|t| self.test(t)).collect();
        Condition(condition.0.iter().map(tests).collect())
    }

    fn test(&self, test: &parser::Test) -> Test {
        match test {
            parser::Test::Fixed(truth) => Test::Fixed(*truth),
            parser::Test::Compare(left, comparison, right) => {
                Test::Compare(self.expression(left), *comparison, self.expression(right))
            }
        }
    }

    fn expression(&self, e: &parser::Expression) -> Expression {
        let rest = e.rest.iter().map(|(operation, term)| (*operation, self.term(term)));
        Expression { first: self.term(&e.first), rest: rest.collect() }
    }

    fn term(&self, term: &parser::Term) -> Term {
        let rest = term.rest.iter().map(|operand| self.operand(operand)).collect();
        Term { first: self.operand(&term.first), rest }
    }

    fn operand(&self, operand: &parser::Operand) -> Operand {
        match operand {
            parser::Operand::Number(number, _) => Operand::Number(*number),
            parser::Operand::Variable(name) => Operand::Variable(self.number(name)),
            parser::Operand::Call(name, arguments) => {
                let arguments = arguments.iter().map(|e| self.expression(e)).collect();
                Operand::Call(number_of(self.functions, &name.text), arguments)
            }
            parser::Operand::Brackets(inner) => Operand::Brackets(Box::new(self.expression(inner))),
        }
    }
}

/// An operation on 32-bit two's complement: the low 32 bits of the exact result.
pub fn work(operation: Operation, left: i32, right: i32) -> i32 {
    let (left, right) = (i64::from(left), i64::from(right));
    let exact = match operation {
        Operation::Add => left + right,
        Operation::Subtract => left - right,
        Operation::Multiply => left * right,
    };
    exact as i32
}

pub fn compare(comparison: Comparison, left: i32, right: i32) -> bool {
    match comparison {
        Comparison::Less => left < right,
        Comparison::LessEqual => left <= right,
        Comparison::Greater => left > right,
        Comparison::GreaterEqual => left >= right,
        Comparison::Equal => left == right,
        Comparison::NotEqual => left != right,
    }
}
