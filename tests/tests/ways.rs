//! Definite assignment a second time, without the rules of JLS 16: a function
//! is a list of instructions, and a name is refused if some way through them,
//! tests of numbers going either way, reads a variable that holds nothing.

use reference::assigned::unassigned;
use reference::lexer::tokens;
use reference::parser::{
    parse, Condition, Expression, Function, Name, Operand, Statement, StatementKind, Term, Test,
};
use reference::random::Random;
use reference::{check, generate, with_room};
use std::collections::BTreeSet;

/// A variable is the place of its declaration.
enum Instruction {
    Empty(usize),
    Give(usize),
    /// The variable, and the place of the name that reads it.
    Read(usize, usize),
    /// Goes on with the next one, or there.
    Either(usize),
    Jump(usize),
    Stop,
}

#[derive(Default)]
struct Code {
    instructions: Vec<Instruction>,
    names: Vec<(String, usize)>,
}

impl Code {
    fn of(function: &Function) -> Code {
        let mut code = Code::default();
        for parameter in &function.parameters {
            code.declare(parameter);
            code.instructions.push(Instruction::Give(parameter.place));
        }
        code.block(&function.body);
        code
    }

    fn here(&self) -> usize {
        self.instructions.len()
    }

    fn declare(&mut self, name: &Name) {
        self.names.push((name.text.clone(), name.place));
    }

    fn variable(&self, name: &Name) -> usize {
        self.names.iter().rev().find(|(text, _)| *text == name.text).expect("it is found").1
    }

    /// A jump that is not yet known to lead anywhere; its place in the list.
    fn jump(&mut self, instruction: fn(usize) -> Instruction) -> usize {
        self.instructions.push(instruction(usize::MAX));
        self.here() - 1
    }

    fn lead_here(&mut self, jumps: &[usize]) {
        let here = self.here();
        for jump in jumps {
            match &mut self.instructions[*jump] {
                Instruction::Either(to) | Instruction::Jump(to) => *to = here,
                _ => unreachable!("only jumps are led"),
            }
        }
    }

    fn block(&mut self, statements: &[Statement]) {
        let outside = self.names.len();
        for statement in statements {
            self.statement(statement);
        }
        self.names.truncate(outside);
    }

    fn statement(&mut self, statement: &Statement) {
        match &statement.kind {
            StatementKind::Empty => {}
            StatementKind::Declare(name) => {
                self.declare(name);
                self.instructions.push(Instruction::Empty(name.place));
            }
            StatementKind::DeclareFree(name, _) => {
                self.declare(name);
                self.instructions.push(Instruction::Give(name.place));
            }
            StatementKind::Assign(name, e) => {
                self.expression(e);
                self.instructions.push(Instruction::Give(self.variable(name)));
            }
            StatementKind::Work(e) => self.expression(e),
            StatementKind::Braces(inner) => self.block(inner),
            StatementKind::If(condition, yes, no) => {
                let falses = self.condition(condition);
                self.block(std::slice::from_ref(yes));
                let end = self.jump(Instruction::Jump);
                self.lead_here(&falses);
                self.block(std::slice::from_ref(no));
                self.lead_here(&[end]);
            }
            StatementKind::While(condition, body) => {
                let start = self.here();
                let falses = self.condition(condition);
                self.block(std::slice::from_ref(body));
                self.instructions.push(Instruction::Jump(start));
                self.lead_here(&falses);
            }
            StatementKind::Return(e) => {
                self.expression(e);
                self.instructions.push(Instruction::Stop);
            }
            StatementKind::Fail => self.instructions.push(Instruction::Stop),
        }
    }

    /// What stands behind a condition is where it is true; the jumps that it
    /// answers are taken where it is false.
    fn condition(&mut self, condition: &Condition) -> Vec<usize> {
        let mut trues = Vec::new();
        let mut falses: Vec<usize> = Vec::new();
        for tests in &condition.0 {
            self.lead_here(&falses);
            falses = tests.iter().filter_map(|test| self.test(test)).collect();
            trues.push(self.jump(Instruction::Jump));
        }
        self.lead_here(&trues);
        falses
    }

    fn test(&mut self, test: &Test) -> Option<usize> {
        match test {
            Test::Fixed(true) => None,
            Test::Fixed(false) => Some(self.jump(Instruction::Jump)),
            Test::Compare(left, _, right) => {
                self.expression(left);
                self.expression(right);
                Some(self.jump(Instruction::Either))
            }
        }
    }

    fn expression(&mut self, e: &Expression) {
        self.term(&e.first);
        for (_, term) in &e.rest {
            self.term(term);
        }
    }

    fn term(&mut self, term: &Term) {
        for operand in std::iter::once(&term.first).chain(&term.rest) {
            match operand {
                Operand::Number(..) => {}
                Operand::Variable(name) => {
                    self.instructions.push(Instruction::Read(self.variable(name), name.place));
                }
                Operand::Call(_, arguments) => arguments.iter().for_each(|e| self.expression(e)),
                Operand::Brackets(inner) => self.expression(inner),
            }
        }
    }

    /// The places at which some way reads the variable while it is empty.
    fn empty_reads(&self, wanted: usize) -> BTreeSet<usize> {
        let mut places = BTreeSet::new();
        let mut seen = BTreeSet::new();
        let mut open = vec![(0, false)];
        while let Some((at, empty)) = open.pop() {
            if at == self.here() || !seen.insert((at, empty)) {
                continue;
            }
            match self.instructions[at] {
                Instruction::Empty(variable) => open.push((at + 1, empty || variable == wanted)),
                Instruction::Give(variable) => open.push((at + 1, empty && variable != wanted)),
                Instruction::Read(variable, place) => {
                    if empty && variable == wanted {
                        places.insert(place);
                    }
                    open.push((at + 1, empty));
                }
                Instruction::Either(to) => open.extend([(at + 1, empty), (to, empty)]),
                Instruction::Jump(to) => open.push((to, empty)),
                Instruction::Stop => {}
            }
        }
        places
    }

    fn all_empty_reads(&self) -> BTreeSet<usize> {
        let declared = self.instructions.iter().filter_map(|instruction| match instruction {
            Instruction::Empty(variable) => Some(*variable),
            _ => None,
        });
        declared.flat_map(|variable| self.empty_reads(variable)).collect()
    }
}

#[test]
fn names_are_refused_where_a_way_finds_nothing() {
    with_room(|| {
        let mut random = Random::new(17);
        let texts = 10_000;
        let (mut accepted, mut refused, mut places) = (0, 0, 0);
        for _ in 0..texts {
            let text = generate::text(&mut random);
            match check(&text) {
                Ok(()) => accepted += 1,
                Err((17, _)) => refused += 1,
                Err((10, _)) => {}
                Err(_) => continue,
            }
            let functions = parse(&tokens(&text).expect("tokens")).expect("a program");
            let ways: BTreeSet<usize> =
                functions.iter().flat_map(|f| Code::of(f).all_empty_reads()).collect();
            let rule: BTreeSet<usize> = unassigned(&functions).into_iter().collect();
            assert_eq!(rule, ways, "{}", String::from_utf8_lossy(&text));
            places += ways.len();
        }
        println!("{accepted} texts accepted, {refused} refused with 17, {places} places");
        assert!(accepted > texts / 2 && refused > texts / 30, "both kinds come often");
    });
}
