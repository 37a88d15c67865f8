//! One run: values are chosen for the free declarations in the order in which
//! they are reached, and the run is then fixed. Nothing here knows of windows,
//! choices or moves.

use crate::program::{
    compare, work, Condition, Expression, Operand, Program, Statement, Term, Test,
};

pub const MOST_FREE: usize = 8;
pub const DEEPEST_CALL: usize = 32;

#[derive(Clone, Copy, PartialEq, Eq, Debug)]
pub enum End {
    Returned(i32),
    Failed,
    Cut,
    /// The run reached a free declaration for which no value was given; its own
    /// pair, if it has one.
    Wanting(Option<(i32, i32)>),
}

#[derive(Debug)]
pub struct Run {
    pub end: End,
    /// The outcomes of the comparisons worked, in order.
    pub tests: Vec<bool>,
    /// How many free declarations were reached and given a value.
    pub reached: usize,
    pub steps: u32,
}

pub fn run(program: &Program, values: &[i32], limit: u32) -> Run {
    let mut runner = Runner {
        program,
        values,
        limit,
        run: Run { end: End::Failed, tests: Vec::new(), reached: 0, steps: 0 },
        depth: 0,
    };
    runner.run.end = match runner.call(program.main, &[]) {
        Ok(result) => End::Returned(result),
        Err(end) => end,
    };
    runner.run
}

struct Runner<'a> {
    program: &'a Program,
    values: &'a [i32],
    limit: u32,
    run: Run,
    depth: usize,
}

/// What a variable holds: nothing, from its declaration to its first value.
type Cell = Option<i32>;

/// Said where a run reads a variable that holds nothing.
pub const NOTHING: &str = "no run of an accepted text reads a variable that holds nothing";

/// `Err` carries the end of the whole run.
type Worked<T> = Result<T, End>;

impl Runner<'_> {
    fn step(&mut self) -> Worked<()> {
        if self.run.steps == self.limit {
            return Err(End::Cut);
        }
        self.run.steps += 1;
        Ok(())
    }

    fn call(&mut self, function: usize, arguments: &[i32]) -> Worked<i32> {
        if self.depth == DEEPEST_CALL {
            return Err(End::Cut);
        }
        self.step()?;
        self.depth += 1;
        let body = &self.program.bodies[function];
        let mut cells: Vec<Cell> = arguments.iter().copied().map(Some).collect();
        cells.resize(body.variables, None);
        let result = self.statements(&body.statements, &mut cells)?;
        self.depth -= 1;
        Ok(result.expect("a body can't reach its end"))
    }

    /// Statements one after the other; the result, if one of them returned.
    fn statements(&mut self, list: &[Statement], cells: &mut [Cell]) -> Worked<Option<i32>> {
        for statement in list {
            if let Some(result) = self.statement(statement, cells)? {
                return Ok(Some(result));
            }
        }
        Ok(None)
    }

    fn statement(&mut self, statement: &Statement, cells: &mut [Cell]) -> Worked<Option<i32>> {
        if let Statement::DeclareFree(..) = statement {
            if self.run.reached == MOST_FREE {
                return Err(End::Cut);
            }
        }
        self.step()?;
        match statement {
            Statement::Empty => {}
            Statement::Declare(variable) => cells[*variable] = None,
            Statement::DeclareFree(variable, pair) => {
                let value = self.values.get(self.run.reached);
                cells[*variable] = Some(*value.ok_or(End::Wanting(*pair))?);
                self.run.reached += 1;
            }
            Statement::Assign(variable, e) => {
                cells[*variable] = Some(self.expression(e, cells)?);
            }
            Statement::Work(e) => {
                self.expression(e, cells)?;
            }
            Statement::Braces(inner) => return self.statements(inner, cells),
            Statement::If(condition, yes, no) => {
                let arm = if self.condition(condition, cells)? { yes } else { no };
                return self.statement(arm, cells);
            }
            Statement::While(condition, body) => {
                while self.condition(condition, cells)? {
                    if let Some(result) = self.statement(body, cells)? {
                        return Ok(Some(result));
                    }
                    // The condition is worked again.
                    self.step()?;
                }
            }
            Statement::Return(e) => return Ok(Some(self.expression(e, cells)?)),
            Statement::Fail => return Err(End::Failed),
        }
        Ok(None)
    }

    fn condition(&mut self, condition: &Condition, cells: &[Cell]) -> Worked<bool> {
        for tests in &condition.0 {
            let mut all = true;
            for test in tests {
                if !self.test(test, cells)? {
                    all = false;
                    break;
                }
            }
            if all {
                return Ok(true);
            }
        }
        Ok(false)
    }

    fn test(&mut self, test: &Test, cells: &[Cell]) -> Worked<bool> {
        match test {
            Test::Fixed(truth) => Ok(*truth),
            Test::Compare(left, comparison, right) => {
                let left = self.expression(left, cells)?;
                let right = self.expression(right, cells)?;
                self.step()?;
                let outcome = compare(*comparison, left, right);
                self.run.tests.push(outcome);
                Ok(outcome)
            }
        }
    }

    fn expression(&mut self, e: &Expression, cells: &[Cell]) -> Worked<i32> {
        let mut value = self.term(&e.first, cells)?;
        for (operation, term) in &e.rest {
            let right = self.term(term, cells)?;
            self.step()?;
            value = work(*operation, value, right);
        }
        Ok(value)
    }

    fn term(&mut self, term: &Term, cells: &[Cell]) -> Worked<i32> {
        let mut value = self.operand(&term.first, cells)?;
        for operand in &term.rest {
            let right = self.operand(operand, cells)?;
            self.step()?;
            value = work(crate::parser::Operation::Multiply, value, right);
        }
        Ok(value)
    }

    fn operand(&mut self, operand: &Operand, cells: &[Cell]) -> Worked<i32> {
        match operand {
            Operand::Number(number) => Ok(*number),
            Operand::Variable(variable) => Ok(cells[*variable].expect(NOTHING)),
            Operand::Call(function, arguments) => {
                let mut values = Vec::new();
                for argument in arguments {
                    values.push(self.expression(argument, cells)?);
                }
                self.call(*function, &values)
            }
            Operand::Brackets(inner) => self.expression(inner, cells),
        }
    }
}
