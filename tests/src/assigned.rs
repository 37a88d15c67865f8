//! Definite assignment (refusal 17), after JLS chapter 16: the names that are
//! read where a variable may hold nothing.
//!
//! A function is gone through once, with the declarations that are assigned on
//! every way to the point that is reached. An expression assigns nothing.

use crate::parser::{Condition, Expression, Function, Name, Operand};
use crate::parser::{Statement, StatementKind, Test};
use crate::rules::operands;
use std::collections::BTreeSet;

/// The declarations, by the places of their names, that are assigned; `None`
/// where no way leads: everything is assigned there.
type Assigned = Option<BTreeSet<usize>>;

/// Where two ways come together: what is assigned on both.
fn meet(one: Assigned, other: Assigned) -> Assigned {
    match (one, other) {
        (None, only) | (only, None) => only,
        (Some(one), Some(other)) => Some(one.intersection(&other).copied().collect()),
    }
}

/// What is assigned at the two ends of a condition.
struct Ends {
    yes: Assigned,
    no: Assigned,
}

/// 17: the names that are read where their variable is not assigned.
pub fn unassigned(functions: &[Function]) -> Vec<usize> {
    functions.iter().flat_map(of_function).collect()
}

fn of_function(function: &Function) -> Vec<usize> {
    let seen: Vec<&Name> = function.parameters.iter().collect();
    let parameters = seen.iter().map(|name| name.place).collect();
    let mut walk = Walk { seen, unassigned: Vec::new() };
    walk.block(&function.body, Some(parameters));
    walk.unassigned
}

struct Walk<'a> {
    /// The declarations that can be seen, the newest last.
    seen: Vec<&'a Name>,
    unassigned: Vec<usize>,
}

impl<'a> Walk<'a> {
    /// The declaration that a name means, if there is one.
    fn meaning(&self, name: &Name) -> Option<usize> {
        let declared = self.seen.iter().rev().find(|declared| declared.text == name.text);
        declared.map(|declared| declared.place)
    }

    fn block(&mut self, statements: &'a [Statement], before: Assigned) -> Assigned {
        let outside = self.seen.len();
        let after = statements.iter().fold(before, |now, next| self.statement(next, now));
        self.seen.truncate(outside);
        after
    }

    /// What is assigned after the statement.
    fn statement(&mut self, statement: &'a Statement, mut before: Assigned) -> Assigned {
        match &statement.kind {
            StatementKind::Empty => before,
            StatementKind::Declare(name) => {
                self.seen.push(name);
                before
            }
            StatementKind::DeclareFree(name, _) => {
                self.seen.push(name);
                assign(&mut before, Some(name.place));
                before
            }
            StatementKind::Assign(name, e) => {
                self.read(e, &before);
                assign(&mut before, self.meaning(name));
                before
            }
            StatementKind::Work(e) => {
                self.read(e, &before);
                before
            }
            StatementKind::Braces(inner) => self.block(inner, before),
            StatementKind::If(condition, yes, no) => {
                let ends = self.condition(condition, before);
                let after_yes = self.block(std::slice::from_ref(yes), ends.yes);
                let after_no = self.block(std::slice::from_ref(no), ends.no);
                meet(after_yes, after_no)
            }
            StatementKind::While(condition, body) => {
                let ends = self.condition(condition, before);
                self.block(std::slice::from_ref(body), ends.yes);
                ends.no
            }
            StatementKind::Return(e) => {
                self.read(e, &before);
                None
            }
            StatementKind::Fail => None,
        }
    }

    /// Each alternative starts where those before it are false.
    fn condition(&mut self, condition: &Condition, before: Assigned) -> Ends {
        let mut ends = Ends { yes: None, no: before };
        for tests in &condition.0 {
            let next = self.all(tests, ends.no);
            ends = Ends { yes: meet(ends.yes, next.yes), no: next.no };
        }
        ends
    }

    /// Each test starts where those before it are true.
    fn all(&mut self, tests: &[Test], before: Assigned) -> Ends {
        let mut ends = Ends { yes: before, no: None };
        for test in tests {
            let next = self.test(test, ends.yes);
            ends = Ends { yes: next.yes, no: meet(ends.no, next.no) };
        }
        ends
    }

    fn test(&mut self, test: &Test, before: Assigned) -> Ends {
        match test {
            Test::Fixed(true) => Ends { yes: before, no: None },
            Test::Fixed(false) => Ends { yes: None, no: before },
            Test::Compare(left, _, right) => {
                self.read(left, &before);
                self.read(right, &before);
                Ends { yes: before.clone(), no: before }
            }
        }
    }

    fn read(&mut self, e: &Expression, assigned: &Assigned) {
        for operand in operands(e) {
            match operand {
                Operand::Number(..) => {}
                Operand::Variable(name) => {
                    let holds = match (assigned, self.meaning(name)) {
                        (Some(assigned), Some(declared)) => assigned.contains(&declared),
                        // No way leads here, or 6 has refused the name.
                        _ => true,
                    };
                    if !holds {
                        self.unassigned.push(name.place);
                    }
                }
                Operand::Call(_, arguments) => {
                    for argument in arguments {
                        self.read(argument, assigned);
                    }
                }
                Operand::Brackets(inner) => self.read(inner, assigned),
            }
        }
    }
}

fn assign(assigned: &mut Assigned, declared: Option<usize>) {
    if let Some(assigned) = assigned {
        assigned.extend(declared);
    }
}
