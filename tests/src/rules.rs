//! The rules that a text must keep beside its grammar (refusals 5 to 9, 17, 10,
//! 18 and 19), and the operations check and remarks.

use crate::assigned::unassigned;
use crate::lexer::tokens;
use crate::parser::{
    parse, Condition, Expression, Function, Name, Operand, Pair, Statement, StatementKind, Term,
    Test,
};
use crate::search::MOST_VALUES;
use crate::Refusal;

pub const DEEPEST: usize = 24;
pub const MOST_FUNCTIONS: usize = 16;
pub const MOST_PARAMETERS: usize = 4;
pub const MOST_DECLARATIONS: usize = 16;
pub const LEAST_OFFSETS: usize = 16;

/// The operation check: nothing if the text is accepted.
pub fn check(text: &[u8]) -> Result<(), Refusal> {
    accepted(text).map(|_| ())
}

/// The operation remarks, with a slice of `places` places: the name offsets of
/// the functions but main that no chain of calls leads to from main, in the
/// order of the text.
pub fn remarks(text: &[u8], places: usize) -> Result<Vec<u16>, Refusal> {
    if places < LEAST_OFFSETS {
        return Err((15, 0));
    }
    let functions = accepted(text)?;
    let mut reached = vec!["main".to_string()];
    let mut seen = 0;
    while seen < reached.len() {
        let function = functions.iter().find(|f| f.name.text == reached[seen]);
        let mut called = Seen::default();
        called.statements(&function.expect("every name is found").body, 1);
        for (name, _) in called.calls {
            if !reached.contains(&name.text) {
                reached.push(name.text);
            }
        }
        seen += 1;
    }
    let unreached = functions.iter().filter(|f| !reached.contains(&f.name.text));
    Ok(unreached.map(|f| f.name.place as u16).collect())
}

/// The functions of the text if it is accepted, else its refusal.
pub fn accepted(text: &[u8]) -> Result<Vec<Function>, Refusal> {
    let functions = parse(&tokens(text)?)?;
    let rules: [(u32, Vec<usize>); 9] = [
        (5, too_deep(&functions)),
        (6, wrong_names(&functions)),
        (7, wrong_calls(&functions)),
        (8, wrong_main(&functions, text.len())),
        (9, open_ends(&functions)),
        (17, unassigned(&functions)),
        (10, too_many(&functions)),
        (18, pairs_where(&functions, |low, high| low > high)),
        (19, pairs_where(&functions, |low, high| high - low + 1 > MOST_VALUES)),
    ];
    // A rule is looked at only where those before it are kept, so that every
    // place of a broken rule means something; all are worked out here, since
    // none of them minds if another is broken.
    for (number, places) in rules {
        if let Some(place) = places.into_iter().min() {
            return Err((number, place));
        }
    }
    Ok(functions)
}

/// What stands in a body, gathered in one walk: the things with their depths,
/// the calls with their counts of arguments, and the declarations.
#[derive(Default)]
struct Seen {
    /// The first token's place of each statement, expression in brackets and
    /// argument, with its depth.
    depths: Vec<(usize, usize)>,
    calls: Vec<(Name, usize)>,
    declarations: Vec<Name>,
    pairs: Vec<Pair>,
}

impl Seen {
    fn statements(&mut self, statements: &[Statement], depth: usize) {
        for statement in statements {
            self.statement(statement, depth);
        }
    }

    fn statement(&mut self, statement: &Statement, depth: usize) {
        self.depths.push((statement.place, depth));
        match &statement.kind {
            StatementKind::Empty | StatementKind::Fail => {}
            StatementKind::Declare(name) => self.declarations.push(name.clone()),
            StatementKind::DeclareFree(name, pair) => {
                self.declarations.push(name.clone());
                self.pairs.extend(pair);
            }
            StatementKind::Assign(_, expression)
            | StatementKind::Work(expression)
            | StatementKind::Return(expression) => self.expression(expression, depth),
            StatementKind::Braces(inner) => self.statements(inner, depth + 1),
            StatementKind::If(condition, yes, no) => {
                self.condition(condition, depth);
                self.statement(yes, depth + 1);
                self.statement(no, depth + 1);
            }
            StatementKind::While(condition, body) => {
                self.condition(condition, depth);
                self.statement(body, depth + 1);
            }
        }
    }

    fn condition(&mut self, condition: &Condition, depth: usize) {
        for test in condition.0.iter().flatten() {
            if let Test::Compare(left, _, right) = test {
                self.expression(left, depth);
                self.expression(right, depth);
            }
        }
    }

    fn expression(&mut self, expression: &Expression, depth: usize) {
        for operand in operands(expression) {
            match operand {
                Operand::Number(..) | Operand::Variable(_) => {}
                Operand::Call(name, arguments) => {
                    self.calls.push((name.clone(), arguments.len()));
                    for argument in arguments {
                        self.deeper(argument, depth + 1);
                    }
                }
                Operand::Brackets(inner) => self.deeper(inner, depth + 1),
            }
        }
    }

    fn deeper(&mut self, expression: &Expression, depth: usize) {
        self.depths.push((expression.place, depth));
        self.expression(expression, depth);
    }
}

/// The operands of a sum of products, from left to right.
pub fn operands(expression: &Expression) -> impl Iterator<Item = &Operand> {
    fn of(term: &Term) -> impl Iterator<Item = &Operand> {
        std::iter::once(&term.first).chain(&term.rest)
    }
    of(&expression.first).chain(expression.rest.iter().flat_map(|(_, term)| of(term)))
}

fn seen(function: &Function) -> Seen {
    let mut seen = Seen::default();
    seen.statements(&function.body, 1);
    seen
}

/// 5: the places of what is too deep.
fn too_deep(functions: &[Function]) -> Vec<usize> {
    let depths = functions.iter().flat_map(|f| seen(f).depths);
    depths.filter(|(_, depth)| *depth > DEEPEST).map(|(place, _)| place).collect()
}

/// 6: the places of names that are not found, or declared while the same name
/// of their kind can be seen.
fn wrong_names(functions: &[Function]) -> Vec<usize> {
    let mut wrong = Vec::new();
    for (number, function) in functions.iter().enumerate() {
        let name = &function.name;
        if functions[..number].iter().any(|earlier| earlier.name.text == name.text) {
            wrong.push(name.place);
        }
        wrong.append(&mut named(functions, function, newest_back).wrong);
    }
    wrong
}

/// How many names each lookup of a variable compares (slip 6), in the order of
/// the text, for a text that keeps the grammar.
pub fn lookups(text: &[u8], compare: Compare) -> Result<Vec<usize>, Refusal> {
    let functions = parse(&tokens(text)?)?;
    Ok(functions.iter().flat_map(|f| named(&functions, f, compare).compared).collect())
}

/// A lookup among blocks of names, the innermost last and each with its newest
/// last: how many it compares, and whether it has found the name.
pub type Compare = fn(&[Vec<String>], &str) -> (usize, bool);

/// "from the newest back"; "those up to the hit, or all of them if there is none".
pub fn newest_back(blocks: &[Vec<String>], name: &str) -> (usize, bool) {
    let seen: Vec<&String> = blocks.iter().flatten().collect();
    let hit = seen.iter().rposition(|other| *other == name);
    (seen.len() - hit.unwrap_or(0), hit.is_some())
}

/// The names of a function, looked up.
fn named<'a>(functions: &'a [Function], function: &Function, compare: Compare) -> Scope<'a> {
    let (wrong, compared) = (Vec::new(), Vec::new());
    let mut scope = Scope { functions, blocks: vec![Vec::new()], compare, wrong, compared };
    for parameter in &function.parameters {
        scope.declare(parameter);
    }
    scope.block(&function.body);
    scope
}

/// The names that can be seen: a list for each block, the innermost last.
struct Scope<'a> {
    functions: &'a [Function],
    blocks: Vec<Vec<String>>,
    compare: Compare,
    wrong: Vec<usize>,
    /// How many names each lookup so far has compared.
    compared: Vec<usize>,
}

impl Scope<'_> {
    fn sees(&mut self, name: &Name) -> bool {
        let (compared, found) = (self.compare)(&self.blocks, &name.text);
        self.compared.push(compared);
        found
    }

    fn declare(&mut self, name: &Name) {
        if self.sees(name) {
            self.wrong.push(name.place);
        }
        self.blocks.last_mut().expect("a block is open").push(name.text.clone());
    }

    fn uses(&mut self, name: &Name) {
        if !self.sees(name) {
            self.wrong.push(name.place);
        }
    }

    fn block(&mut self, statements: &[Statement]) {
        self.blocks.push(Vec::new());
        for statement in statements {
            self.statement(statement);
        }
        self.blocks.pop();
    }

    fn statement(&mut self, statement: &Statement) {
        match &statement.kind {
            StatementKind::Empty | StatementKind::Fail => {}
            StatementKind::Declare(name) | StatementKind::DeclareFree(name, _) => {
                self.declare(name);
            }
            StatementKind::Assign(name, expression) => {
                self.uses(name);
                self.expression(expression);
            }
            StatementKind::Work(expression) | StatementKind::Return(expression) => {
                self.expression(expression);
            }
            StatementKind::Braces(inner) => self.block(inner),
            StatementKind::If(condition, yes, no) => {
                self.condition(condition);
                self.block(std::slice::from_ref(yes));
                self.block(std::slice::from_ref(no));
            }
            StatementKind::While(condition, body) => {
                self.condition(condition);
                self.block(std::slice::from_ref(body));
            }
        }
    }

    fn condition(&mut self, condition: &Condition) {
        for test in condition.0.iter().flatten() {
            if let Test::Compare(left, _, right) = test {
                self.expression(left);
                self.expression(right);
            }
        }
    }

    fn expression(&mut self, expression: &Expression) {
        for operand in operands(expression) {
            match operand {
                Operand::Number(..) => {}
                Operand::Variable(name) => self.uses(name),
                Operand::Call(name, arguments) => {
                    if !self.functions.iter().any(|f| f.name.text == name.text) {
                        self.wrong.push(name.place);
                    }
                    for argument in arguments {
                        self.expression(argument);
                    }
                }
                Operand::Brackets(inner) => self.expression(inner),
            }
        }
    }
}

/// 7: the called names of calls with a wrong count of arguments.
fn wrong_calls(functions: &[Function]) -> Vec<usize> {
    let mut wrong = Vec::new();
    for (name, count) in functions.iter().flat_map(|f| seen(f).calls) {
        let called = functions.iter().find(|f| f.name.text == name.text);
        if called.is_some_and(|f| f.parameters.len() != count) {
            wrong.push(name.place);
        }
    }
    wrong
}

/// 8: no main, or a main with parameters.
fn wrong_main(functions: &[Function], length: usize) -> Vec<usize> {
    match functions.iter().find(|f| f.name.text == "main") {
        None => vec![length],
        Some(main) if !main.parameters.is_empty() => vec![main.name.place],
        Some(_) => Vec::new(),
    }
}

/// 9: the closing braces of bodies that can reach their end.
fn open_ends(functions: &[Function]) -> Vec<usize> {
    functions.iter().filter(|f| !last_stops(&f.body)).map(|f| f.close).collect()
}

fn last_stops(statements: &[Statement]) -> bool {
    statements.last().is_some_and(stops)
}

/// Whether the statement can't reach its end.
fn stops(statement: &Statement) -> bool {
    match &statement.kind {
        StatementKind::Return(_) | StatementKind::Fail => true,
        StatementKind::Braces(inner) => last_stops(inner),
        StatementKind::If(_, yes, no) => stops(yes) && stops(no),
        _ => false,
    }
}

/// 10: the names of a 17th function, a 5th parameter, a 17th declaration.
fn too_many(functions: &[Function]) -> Vec<usize> {
    let mut wrong = Vec::new();
    wrong.extend(functions.get(MOST_FUNCTIONS).map(|f| f.name.place));
    for function in functions {
        let parameters = &function.parameters;
        wrong.extend(parameters.get(MOST_PARAMETERS).map(|name| name.place));
        let inner = seen(function).declarations;
        wrong.extend(parameters.iter().chain(&inner).nth(MOST_DECLARATIONS).map(|name| name.place));
    }
    wrong
}

/// 18 and 19: the low ends of the own pairs of which this is so.
fn pairs_where(functions: &[Function], so: impl Fn(i64, i64) -> bool) -> Vec<usize> {
    let pairs = functions.iter().flat_map(|f| seen(f).pairs);
    pairs.filter(|pair| so(pair.low.into(), pair.high.into())).map(|pair| pair.place).collect()
}
