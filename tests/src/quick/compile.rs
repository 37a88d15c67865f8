//! A program to flat code.
//!
//! Every function has its variables in its first registers, and what is
//! pending in an expression behind them. A variable is read where it stands,
//! and the last operation of an assignment writes where its variable stands.

use super::code::{Act, Branch, Instruction, Place, Register, Relation};
use super::window::Window;
use super::Manner;
use crate::parser::{Comparison, Operation};
use crate::program::{Body, Condition, Expression, Operand, Program, Statement, Term, Test};

/// No function has more registers: it has sixteen variables at most, and at
/// each of 24 depths a sum and a product that are pending, a way back and four
/// arguments.
pub const MOST_REGISTERS: usize = 256;

/// The code of a program. It begins with the call of main, and then the end.
pub fn compile(program: &Program, manner: Manner) -> Vec<Instruction> {
    let mut compiler = Compiler {
        manner,
        code: Vec::new(),
        steps: 0,
        next: 0,
        begins: Vec::new(),
        calls: Vec::new(),
    };
    compiler.call(program.main, 0);
    compiler.put(Act::Finish);
    for body in &program.bodies {
        compiler.function(body);
    }
    for (at, function) in std::mem::take(&mut compiler.calls) {
        compiler.lead(at, compiler.begins[function]);
    }
    compiler.code
}

/// Where a value stands.
#[derive(Clone, Copy)]
enum Source {
    Number(i32),
    Register(Register),
}

struct Compiler {
    manner: Manner,
    code: Vec<Instruction>,
    /// Steps that no instruction has yet.
    steps: u16,
    /// The next register that is not in use.
    next: Register,
    /// Where each function begins.
    begins: Vec<usize>,
    /// The calls, each with its function.
    calls: Vec<(usize, usize)>,
}

/// Jumps whose places are still to come, for both outcomes of a condition.
#[derive(Default)]
struct Jumps {
    yes: Vec<usize>,
    no: Vec<usize>,
}

impl Compiler {
    fn put(&mut self, act: Act) -> usize {
        self.code.push(Instruction { steps: std::mem::take(&mut self.steps), act });
        self.code.len() - 1
    }

    /// An operation or a comparison is a step itself.
    fn put_step(&mut self, act: Act) -> usize {
        self.steps += 1;
        self.put(act)
    }

    /// A statement is begun, or a loop's condition worked again.
    fn begin(&mut self) {
        self.steps += 1;
        if self.manner == Manner::Plain {
            self.put(Act::Steps);
        }
    }

    /// Jumps may lead to what comes next: steps that belong before it are put.
    fn here(&mut self) -> usize {
        if self.steps > 0 {
            self.put(Act::Steps);
        }
        self.code.len()
    }

    fn lead(&mut self, at: usize, place: usize) {
        let place = Place::try_from(place).expect("code is short");
        match &mut self.code[at].act {
            Act::Compare(Branch { to, .. }, ..)
            | Act::CompareNumber(Branch { to, .. }, ..)
            | Act::Jump(to)
            | Act::Call(to, _) => *to = place,
            other => unreachable!("{other:?} leads nowhere"),
        }
    }

    fn lead_all(&mut self, jumps: &[usize], place: usize) {
        jumps.iter().for_each(|at| self.lead(*at, place));
    }

    fn function(&mut self, body: &Body) {
        self.begins.push(self.code.len());
        self.next = body.variables as Register;
        self.statements(&body.statements);
        // Nothing comes here, as a body can't reach its end.
        self.steps = 0;
    }

    fn statements(&mut self, list: &[Statement]) {
        list.iter().for_each(|statement| self.statement(statement));
    }

    fn statement(&mut self, statement: &Statement) {
        if let Statement::DeclareFree(variable, pair) = statement {
            let own = pair.map(|(low, high)| Window { low, high });
            self.put(Act::Free(*variable as Register, own));
            return;
        }
        self.begin();
        match statement {
            Statement::Empty | Statement::Declare(_) => {}
            Statement::DeclareFree(..) => unreachable!("it was put above"),
            Statement::Assign(variable, e) => self.expression_to(e, *variable as Register),
            Statement::Work(e) => {
                let before = self.next;
                self.expression(e, None);
                self.next = before;
            }
            Statement::Braces(inner) => self.statements(inner),
            Statement::If(condition, yes, no) => self.choice(condition, yes, no),
            Statement::While(condition, body) => self.repeat(condition, body),
            Statement::Return(e) => self.give_back(e),
            Statement::Fail => {
                self.put(Act::Fail);
            }
        }
    }

    fn choice(&mut self, condition: &Condition, yes: &Statement, no: &Statement) {
        let jumps = self.condition(condition, true);
        let place = self.here();
        self.lead_all(&jumps.yes, place);
        self.statement(yes);
        let end = self.put(Act::Jump(0));
        self.lead_all(&jumps.no, end + 1);
        self.statement(no);
        let place = self.here();
        self.lead(end, place);
    }

    /// The condition stands before the body and once more behind it.
    fn repeat(&mut self, condition: &Condition, body: &Statement) {
        let first = self.condition(condition, true);
        let again = self.here();
        self.lead_all(&first.yes, again);
        self.statement(body);
        self.begin();
        let later = self.condition(condition, false);
        self.lead_all(&later.yes, again);
        let end = self.here();
        self.lead_all(&first.no, end);
        self.lead_all(&later.no, end);
    }

    fn give_back(&mut self, e: &Expression) {
        let before = self.next;
        match self.expression(e, None) {
            Source::Number(number) => self.put(Act::ReturnNumber(number)),
            Source::Register(register) => self.put(Act::Return(register)),
        };
        self.next = before;
    }

    /// The jumps of a condition, which goes on where its outcome is `on`.
    fn condition(&mut self, condition: &Condition, on: bool) -> Jumps {
        let mut jumps = Jumps::default();
        let (last, others) = condition.0.split_last().expect("there is an alternative");
        for tests in others {
            let mut inner = Jumps::default();
            self.tests(tests, false, &mut inner);
            jumps.yes.append(&mut inner.yes);
            let place = self.here();
            self.lead_all(&inner.no, place);
        }
        self.tests(last, on, &mut jumps);
        jumps
    }

    /// Tests of which all must hold, going on where the outcome is `on`.
    fn tests(&mut self, tests: &[Test], on: bool, jumps: &mut Jumps) {
        let (last, others) = tests.split_last().expect("there is a test");
        for test in others {
            let jump = self.test(test, false);
            jumps.no.extend(jump);
        }
        let jump = self.test(last, !on);
        let leads = if on { &mut jumps.no } else { &mut jumps.yes };
        leads.extend(jump);
    }

    /// The jump of a test that leads away where its outcome is `when`.
    fn test(&mut self, test: &Test, when: bool) -> Option<usize> {
        let (left, comparison, right) = match test {
            Test::Fixed(truth) => return (*truth == when).then(|| self.put(Act::Jump(0))),
            Test::Compare(left, comparison, right) => (left, *comparison, right),
        };
        let before = self.next;
        let held = before as u8;
        let branch = |holds| Branch { holds, when, held, to: 0 };
        let holds = relation(comparison);
        let sides = self.sides(|of| of.expression(left, None), |of| of.expression(right, None));
        self.next = before;
        Some(self.put_step(match sides {
            Sides::Registers(left, right) => Act::Compare(branch(holds), left, right),
            Sides::Right(left, number) => Act::CompareNumber(branch(holds), left, number),
            Sides::Left(number, right) => Act::CompareNumber(branch(holds.turned()), right, number),
        }))
    }

    /// Both sides of an operation or comparison, of which one is in a register.
    fn sides(
        &mut self,
        left: impl FnOnce(&mut Compiler) -> Source,
        right: impl FnOnce(&mut Compiler) -> Source,
    ) -> Sides {
        let left = left(self);
        match (left, right(self)) {
            (Source::Register(left), Source::Register(right)) => Sides::Registers(left, right),
            (Source::Register(left), Source::Number(number)) => Sides::Right(left, number),
            (Source::Number(number), Source::Register(right)) => Sides::Left(number, right),
            (Source::Number(left), Source::Number(right)) => {
                let register = self.register();
                self.load(register, left);
                Sides::Right(register, right)
            }
        }
    }

    fn register(&mut self) -> Register {
        let register = self.next;
        self.next += 1;
        assert!(usize::from(self.next) < MOST_REGISTERS, "expressions are not that deep");
        register
    }

    /// A number is put where it is wanted. That is no step, but those before
    /// it are made.
    fn load(&mut self, register: Register, number: i32) {
        self.put(Act::Load(register, number));
    }

    fn expression_to(&mut self, e: &Expression, wanted: Register) {
        let before = self.next;
        match self.expression(e, Some(wanted)) {
            Source::Number(number) => self.load(wanted, number),
            Source::Register(register) if register == wanted => {}
            Source::Register(register) => {
                self.put(Act::Move(wanted, register));
            }
        }
        self.next = before;
    }

    /// Where the value stands; if it is that of an operation, where it is
    /// wanted, or else in the first register that was not in use.
    fn expression(&mut self, e: &Expression, wanted: Option<Register>) -> Source {
        let before = self.next;
        let Some(((operation, last), others)) = e.rest.split_last() else {
            return self.term(&e.first, wanted);
        };
        let mut value = self.term(&e.first, None);
        for (operation, term) in others {
            value = self.operated(*operation, value, |of| of.term(term, None), None, before);
        }
        self.operated(*operation, value, |of| of.term(last, None), wanted, before)
    }

    fn term(&mut self, term: &Term, wanted: Option<Register>) -> Source {
        let before = self.next;
        let Some((last, others)) = term.rest.split_last() else {
            return self.operand(&term.first, wanted);
        };
        let mut value = self.operand(&term.first, None);
        for operand in others {
            let right = |of: &mut Compiler| of.operand(operand, None);
            value = self.operated(Operation::Multiply, value, right, None, before);
        }
        let right = |of: &mut Compiler| of.operand(last, None);
        self.operated(Operation::Multiply, value, right, wanted, before)
    }

    /// `before` is the first register that was not in use before the left side.
    fn operated(
        &mut self,
        operation: Operation,
        left: Source,
        right: impl FnOnce(&mut Compiler) -> Source,
        wanted: Option<Register>,
        before: Register,
    ) -> Source {
        let sides = self.sides(|_| left, right);
        self.next = before;
        let to = wanted.unwrap_or_else(|| self.register());
        self.put_step(match (operation, sides) {
            (Operation::Add, Sides::Registers(left, right)) => Act::Add(to, left, right),
            (Operation::Add, Sides::Right(one, number) | Sides::Left(number, one)) => {
                Act::AddNumber(to, one, number)
            }
            (Operation::Subtract, Sides::Registers(left, right)) => Act::Subtract(to, left, right),
            // Numbers are written with 31 bits, so that each has a negative.
            (Operation::Subtract, Sides::Right(left, number)) => Act::AddNumber(to, left, -number),
            (Operation::Subtract, Sides::Left(number, right)) => {
                Act::SubtractFrom(to, number, right)
            }
            (Operation::Multiply, Sides::Registers(left, right)) => Act::Multiply(to, left, right),
            (Operation::Multiply, Sides::Right(one, number) | Sides::Left(number, one)) => {
                Act::MultiplyNumber(to, one, number)
            }
        });
        Source::Register(to)
    }

    fn operand(&mut self, operand: &Operand, wanted: Option<Register>) -> Source {
        match operand {
            Operand::Number(number) => Source::Number(*number),
            Operand::Variable(variable) => Source::Register(*variable as Register),
            Operand::Brackets(inner) => self.expression(inner, wanted),
            Operand::Call(function, arguments) => {
                let back = self.register();
                for argument in arguments {
                    let register = self.register();
                    self.expression_to(argument, register);
                }
                self.next = back + 1;
                self.call(*function, back);
                Source::Register(back)
            }
        }
    }

    fn call(&mut self, function: usize, back: Register) {
        let at = self.put(Act::Call(0, back));
        self.calls.push((at, function));
    }
}

enum Sides {
    Registers(Register, Register),
    Right(Register, i32),
    Left(i32, Register),
}

fn relation(comparison: Comparison) -> Relation {
    match comparison {
        Comparison::Less => Relation::LESS,
        Comparison::LessEqual => Relation::LESS.or(Relation::EQUAL),
        Comparison::Greater => Relation::GREATER,
        Comparison::GreaterEqual => Relation::GREATER.or(Relation::EQUAL),
        Comparison::Equal => Relation::EQUAL,
        Comparison::NotEqual => Relation::EQUAL.opposite(),
    }
}
