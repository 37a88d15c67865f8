//! Tokens to a tree, and the refusal 4.
//!
//! Each reader looks at one token and goes on only with a token that some
//! program can have there; so the first token it can't use is the first that
//! no program could have there.

use crate::lexer::{Kind, Token};
use crate::Refusal;

#[derive(Clone, Debug)]
pub struct Name {
    pub text: String,
    pub place: usize,
}

#[derive(Clone, Debug)]
pub struct Function {
    pub name: Name,
    pub parameters: Vec<Name>,
    pub body: Vec<Statement>,
    /// The place of the closing brace.
    pub close: usize,
}

#[derive(Clone, Debug)]
pub struct Statement {
    /// The place of the first token.
    pub place: usize,
    pub kind: StatementKind,
}

#[derive(Clone, Debug)]
pub enum StatementKind {
    Empty,
    Declare(Name),
    /// A free number, with a pair of its own or the job's.
    DeclareFree(Name, Option<Pair>),
    Assign(Name, Expression),
    Work(Expression),
    Braces(Vec<Statement>),
    If(Condition, Box<Statement>, Box<Statement>),
    While(Condition, Box<Statement>),
    Return(Expression),
    Fail,
}

/// The own pair of a free number.
#[derive(Clone, Copy, Debug)]
pub struct Pair {
    /// The place of the low end's first token.
    pub place: usize,
    pub low: i32,
    pub high: i32,
    /// Whether the low end and the high end have a `-`.
    pub minus: (bool, bool),
}

/// A sum: a term, then further terms with `+` or `-` before them.
#[derive(Clone, Debug)]
pub struct Expression {
    /// The place of the first token.
    pub place: usize,
    pub first: Term,
    pub rest: Vec<(Operation, Term)>,
}

/// A product: an operand, then further operands with `*` before them.
#[derive(Clone, Debug)]
pub struct Term {
    pub first: Operand,
    pub rest: Vec<Operand>,
}

#[derive(Clone, Debug)]
pub enum Operand {
    /// A number, or `-` with a number, and whether there is a `-`.
    Number(i32, bool),
    Variable(Name),
    Call(Name, Vec<Expression>),
    Brackets(Box<Expression>),
}

/// Alternatives with `||` between, each a list of tests with `&&` between.
#[derive(Clone, Debug)]
pub struct Condition(pub Vec<Vec<Test>>);

#[derive(Clone, Debug)]
pub enum Test {
    Fixed(bool),
    Compare(Expression, Comparison, Expression),
}

#[derive(Clone, Copy, PartialEq, Eq, Debug)]
pub enum Operation {
    Add,
    Subtract,
    Multiply,
}

#[derive(Clone, Copy, PartialEq, Eq, Debug)]
pub enum Comparison {
    Less,
    LessEqual,
    Greater,
    GreaterEqual,
    Equal,
    NotEqual,
}

/// The functions of a program, or the refusal 4.
pub fn parse(tokens: &[Token]) -> Result<Vec<Function>, Refusal> {
    let mut reader = Reader { tokens, next: 0 };
    reader.program().map_err(|place| (4, place))
}

/// The expression that these tokens are, if they are one.
pub fn parse_expression(tokens: &[Token]) -> Option<Expression> {
    let mut reader = Reader { tokens, next: 0 };
    let expression = reader.expression().ok()?;
    (tokens[reader.next].kind == Kind::End).then_some(expression)
}

/// What a reader answers: what it read, or the place of the wrong token.
type Read<T> = Result<T, usize>;

struct Reader<'a, 't> {
    tokens: &'a [Token<'t>],
    next: usize,
}

impl Reader<'_, '_> {
    fn place(&self) -> usize {
        self.tokens[self.next].place
    }

    fn wrong<T>(&self) -> Read<T> {
        Err(self.place())
    }

    fn sees(&self, word: &str) -> bool {
        let token = &self.tokens[self.next];
        token.kind == Kind::Fixed && token.bytes == word.as_bytes()
    }

    /// Takes the next token if it is this word or mark.
    fn takes(&mut self, word: &str) -> bool {
        let seen = self.sees(word);
        if seen {
            self.next += 1;
        }
        seen
    }

    fn expect(&mut self, word: &str) -> Read<()> {
        if self.takes(word) {
            Ok(())
        } else {
            self.wrong()
        }
    }

    fn name(&mut self) -> Read<Name> {
        let token = self.tokens[self.next];
        if token.kind != Kind::Name {
            return self.wrong();
        }
        self.next += 1;
        let text = String::from_utf8(token.bytes.to_vec()).expect("names are ASCII");
        Ok(Name { text, place: token.place })
    }

    fn program(&mut self) -> Read<Vec<Function>> {
        let mut functions = Vec::new();
        while self.tokens[self.next].kind != Kind::End {
            functions.push(self.function()?);
        }
        Ok(functions)
    }

    fn function(&mut self) -> Read<Function> {
        self.expect("int")?;
        let name = self.name()?;
        self.expect("(")?;
        let mut parameters = Vec::new();
        if !self.takes(")") {
            loop {
                self.expect("int")?;
                parameters.push(self.name()?);
                if self.takes(")") {
                    break;
                }
                self.expect(",")?;
            }
        }
        self.expect("{")?;
        let (body, close) = self.statements()?;
        Ok(Function { name, parameters, body, close })
    }

    /// Statements up to and with the closing brace, whose place is answered.
    fn statements(&mut self) -> Read<(Vec<Statement>, usize)> {
        let mut statements = Vec::new();
        loop {
            let place = self.place();
            if self.takes("}") {
                return Ok((statements, place));
            }
            statements.push(self.statement()?);
        }
    }

    fn statement(&mut self) -> Read<Statement> {
        let place = self.place();
        let kind = self.statement_kind()?;
        Ok(Statement { place, kind })
    }

    fn statement_kind(&mut self) -> Read<StatementKind> {
        if self.takes(";") {
            return Ok(StatementKind::Empty);
        }
        if self.takes("{") {
            return Ok(StatementKind::Braces(self.statements()?.0));
        }
        if self.takes("if") {
            let condition = self.condition_in_brackets()?;
            let yes = self.statement()?;
            self.expect("else")?;
            let no = self.statement()?;
            return Ok(StatementKind::If(condition, Box::new(yes), Box::new(no)));
        }
        if self.takes("while") {
            let condition = self.condition_in_brackets()?;
            return Ok(StatementKind::While(condition, Box::new(self.statement()?)));
        }
        // All other statements end with a semicolon.
        let kind = if self.takes("int") {
            let name = self.name()?;
            if self.takes("free") {
                let pair = if self.sees(";") { None } else { Some(self.pair()?) };
                StatementKind::DeclareFree(name, pair)
            } else {
                StatementKind::Declare(name)
            }
        } else if self.takes("return") {
            StatementKind::Return(self.expression()?)
        } else if self.takes("fail") {
            StatementKind::Fail
        } else if self.assignment_ahead() {
            let name = self.name()?;
            self.expect("=")?;
            StatementKind::Assign(name, self.expression()?)
        } else {
            StatementKind::Work(self.expression()?)
        };
        self.expect(";")?;
        Ok(kind)
    }

    fn pair(&mut self) -> Read<Pair> {
        let place = self.place();
        let (low, low_minus) = self.end_of_pair()?;
        self.expect("..")?;
        let (high, high_minus) = self.end_of_pair()?;
        Ok(Pair { place, low, high, minus: (low_minus, high_minus) })
    }

    /// A number with or without a minus, and whether there is one.
    fn end_of_pair(&mut self) -> Read<(i32, bool)> {
        if self.takes("-") {
            Ok((-self.number()?, true))
        } else {
            Ok((self.number()?, false))
        }
    }

    fn assignment_ahead(&self) -> bool {
        self.tokens[self.next].kind == Kind::Name && self.tokens[self.next + 1].bytes == b"="
    }

    fn expression(&mut self) -> Read<Expression> {
        let place = self.place();
        let first = self.term()?;
        let mut rest = Vec::new();
        loop {
            if self.takes("+") {
                rest.push((Operation::Add, self.term()?));
            } else if self.takes("-") {
                rest.push((Operation::Subtract, self.term()?));
            } else {
                return Ok(Expression { place, first, rest });
            }
        }
    }

    fn term(&mut self) -> Read<Term> {
        let first = self.operand()?;
        let mut rest = Vec::new();
        while self.takes("*") {
            rest.push(self.operand()?);
        }
        Ok(Term { first, rest })
    }

    fn operand(&mut self) -> Read<Operand> {
        if self.takes("(") {
            let inner = self.expression()?;
            self.expect(")")?;
            return Ok(Operand::Brackets(Box::new(inner)));
        }
        if self.takes("-") {
            return Ok(Operand::Number(-self.number()?, true));
        }
        if let Kind::Number(_) = self.tokens[self.next].kind {
            return Ok(Operand::Number(self.number()?, false));
        }
        let name = self.name()?;
        if !self.takes("(") {
            return Ok(Operand::Variable(name));
        }
        let mut arguments = Vec::new();
        if !self.takes(")") {
            loop {
                arguments.push(self.expression()?);
                if self.takes(")") {
                    break;
                }
                self.expect(",")?;
            }
        }
        Ok(Operand::Call(name, arguments))
    }

    fn number(&mut self) -> Read<i32> {
        let Kind::Number(value) = self.tokens[self.next].kind else {
            return self.wrong();
        };
        self.next += 1;
        Ok(i32::try_from(value).expect("larger numbers have been refused"))
    }

    fn condition_in_brackets(&mut self) -> Read<Condition> {
        self.expect("(")?;
        let mut alternatives = Vec::new();
        loop {
            let mut tests = vec![self.test()?];
            while self.takes("&&") {
                tests.push(self.test()?);
            }
            alternatives.push(tests);
            if self.takes(")") {
                return Ok(Condition(alternatives));
            }
            self.expect("||")?;
        }
    }

    fn test(&mut self) -> Read<Test> {
        if self.takes("true") {
            return Ok(Test::Fixed(true));
        }
        if self.takes("false") {
            return Ok(Test::Fixed(false));
        }
        let left = self.expression()?;
        let comparison = self.comparison()?;
        let right = self.expression()?;
        Ok(Test::Compare(left, comparison, right))
    }

    fn comparison(&mut self) -> Read<Comparison> {
        for (word, comparison) in [
            ("<", Comparison::Less),
            ("<=", Comparison::LessEqual),
            (">", Comparison::Greater),
            (">=", Comparison::GreaterEqual),
            ("==", Comparison::Equal),
            ("!=", Comparison::NotEqual),
        ] {
            if self.takes(word) {
                return Ok(comparison);
            }
        }
        self.wrong()
    }
}
