//! A text in house style (slip 7), written a second time.
//!
//! Brackets are found by trying: of two parts with an operator between, those
//! stand in brackets without which the text is read as another tree.

use crate::lexer::split;
use crate::parser::{
    parse_expression, Comparison, Condition, Expression, Function, Name, Operand, Operation,
    Statement, StatementKind, Term, Test,
};
use crate::rules::accepted;
use crate::Refusal;

/// An expression without its brackets.
#[derive(Clone, PartialEq, Eq, Debug)]
pub enum Plain {
    Number { value: u32, minus: bool },
    Variable(String),
    Call(String, Vec<Plain>),
    Two(&'static str, Box<Plain>, Box<Plain>),
}

/// The house style of an accepted text, whatever its length, or check's refusal.
pub fn write(text: &[u8]) -> Result<String, Refusal> {
    Ok(house(&accepted(text)?))
}

/// What the program prints: the house style, or `refused N at P`.
pub fn shown(text: &[u8]) -> String {
    write(text).unwrap_or_else(|(number, place)| format!("refused {number} at {place}\n"))
}

/// The house style of a program.
pub fn house(functions: &[Function]) -> String {
    let mut lines = Lines(String::new());
    for function in functions {
        let parameters: Vec<String> =
            function.parameters.iter().map(|name| format!("int {}", name.text)).collect();
        lines.line(0, &format!("int {}({})", function.name.text, parameters.join(", ")));
        lines.braces(0, &function.body);
    }
    lines.0
}

/// The lines so far.
struct Lines(String);

impl Lines {
    fn line(&mut self, depth: usize, words: &str) {
        self.0.push_str(&format!("{:1$}{words}\n", "", 2 * depth));
    }

    fn braces(&mut self, depth: usize, statements: &[Statement]) {
        self.line(depth, "{");
        for statement in statements {
            self.statement(depth + 1, &statement.kind);
        }
        self.line(depth, "}");
    }

    fn statement(&mut self, depth: usize, statement: &StatementKind) {
        match statement {
            StatementKind::Empty => self.line(depth, ";"),
            StatementKind::Declare(Name { text, .. }) => self.line(depth, &format!("int {text};")),
            StatementKind::DeclareFree(Name { text, .. }, None) => {
                self.line(depth, &format!("int {text} free;"));
            }
            StatementKind::DeclareFree(Name { text, .. }, Some(pair)) => {
                let (low, high) = (end(pair.low, pair.minus.0), end(pair.high, pair.minus.1));
                self.line(depth, &format!("int {text} free {low} .. {high};"));
            }
            StatementKind::Assign(Name { text, .. }, value) => {
                self.line(depth, &format!("{text} = {};", expression(value)));
            }
            StatementKind::Work(value) => self.line(depth, &format!("{};", expression(value))),
            StatementKind::Braces(statements) => self.braces(depth, statements),
            StatementKind::If(test, yes, no) => {
                self.line(depth, &format!("if ({})", condition(test)));
                self.statement(depth + 1, &yes.kind);
                self.line(depth, "else");
                self.statement(depth + 1, &no.kind);
            }
            StatementKind::While(test, body) => {
                self.line(depth, &format!("while ({})", condition(test)));
                self.statement(depth + 1, &body.kind);
            }
            StatementKind::Return(value) => {
                self.line(depth, &format!("return {};", expression(value)));
            }
            StatementKind::Fail => self.line(depth, "fail;"),
        }
    }
}

/// The end of a pair.
fn end(value: i32, minus: bool) -> String {
    show(&Plain::Number { value: value.unsigned_abs(), minus })
}

fn condition(condition: &Condition) -> String {
    let all = |tests: &Vec<Test>| tests.iter().map(test).collect::<Vec<_>>().join(" && ");
    condition.0.iter().map(all).collect::<Vec<_>>().join(" || ")
}

fn test(test: &Test) -> String {
    match test {
        Test::Fixed(value) => value.to_string(),
        Test::Compare(left, comparison, right) => {
            let sign = match comparison {
                Comparison::Less => "<",
                Comparison::LessEqual => "<=",
                Comparison::Greater => ">",
                Comparison::GreaterEqual => ">=",
                Comparison::Equal => "==",
                Comparison::NotEqual => "!=",
            };
            format!("{} {sign} {}", expression(left), expression(right))
        }
    }
}

fn expression(value: &Expression) -> String {
    show(&plain(value))
}

/// The tree of an expression, brackets not counted.
pub fn plain(expression: &Expression) -> Plain {
    expression.rest.iter().fold(product(&expression.first), |left, (operation, right)| {
        let sign = if *operation == Operation::Add { "+" } else { "-" };
        Plain::Two(sign, Box::new(left), Box::new(product(right)))
    })
}

fn product(term: &Term) -> Plain {
    term.rest.iter().fold(single(&term.first), |left, right| {
        Plain::Two("*", Box::new(left), Box::new(single(right)))
    })
}

fn single(operand: &Operand) -> Plain {
    match operand {
        Operand::Number(value, minus) => {
            Plain::Number { value: value.unsigned_abs(), minus: *minus }
        }
        Operand::Variable(name) => Plain::Variable(name.text.clone()),
        Operand::Call(name, arguments) => {
            Plain::Call(name.text.clone(), arguments.iter().map(plain).collect())
        }
        Operand::Brackets(inner) => plain(inner),
    }
}

/// The shortest text that is read as this tree.
fn show(tree: &Plain) -> String {
    match tree {
        Plain::Number { value, minus } => format!("{}{value}", if *minus { "-" } else { "" }),
        Plain::Variable(name) => name.clone(),
        Plain::Call(name, arguments) => {
            let arguments: Vec<String> = arguments.iter().map(show).collect();
            format!("{name}({})", arguments.join(", "))
        }
        Plain::Two(sign, left, right) => {
            let (left, right) = (show(left), show(right));
            let ways = [
                format!("{left} {sign} {right}"),
                format!("{left} {sign} ({right})"),
                format!("({left}) {sign} {right}"),
                format!("({left}) {sign} ({right})"),
            ];
            let same = |way: &&String| read(way).as_ref() == Some(tree);
            ways.iter().find(same).expect("with all brackets it is read so").clone()
        }
    }
}

fn read(text: &str) -> Option<Plain> {
    Some(plain(&parse_expression(&split(text.as_bytes()).ok()?)?))
}
