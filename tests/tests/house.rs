//! The house style of slip 7: examples, and what holds of random texts.

use reference::house::{plain, write, Plain};
use reference::lexer::split;
use reference::parser::{parse, Function, Pair, Statement, StatementKind, Test};
use reference::random::Random;
use reference::rule_files::folder;
use reference::{check, generate, with_room};

/// Examples like those of crates/house_style/proofs/Examples.antt, each accepted.
#[test]
fn examples() {
    let styled = [
        (
            "int main(){int y free;if(y<2)return y;else fail;}",
            "int main()\n{\n  int y free;\n  if (y < 2)\n    return y;\n  else\n    fail;\n}\n",
        ),
        (
            "int main() { int x; x = (1); while (true) { ; } if (1 == x) { fail; } else { } return -0; }",
            "int main()\n{\n  int x;\n  x = 1;\n  while (true)\n    {\n      ;\n    }\n  if (1 == x)\n    {\n      fail;\n    }\n  else\n    {\n    }\n  return -0;\n}\n",
        ),
        (
            "int g(int a,int b){return (a*a)+a*(a*a)-((a+a)*a)-(a-a)+((b));} int main(){g(007,(1_0)); return 1 - (-5);}",
            "int g(int a, int b)\n{\n  return a * a + a * (a * a) - (a + a) * a - (a - a) + b;\n}\nint main()\n{\n  g(7, 10);\n  return 1 - -5;\n}\n",
        ),
        (
            "int main(){int x free-0..007;int y free 1_0 ..20;int z free -5.. -1;return x;}",
            "int main()\n{\n  int x free -0 .. 7;\n  int y free 10 .. 20;\n  int z free -5 .. -1;\n  return x;\n}\n",
        ),
    ];
    for (text, house) in styled {
        assert_eq!(write(text.as_bytes()), Ok(house.to_string()), "{text}");
    }
}

/// "Reading its output by the grammar gives the same program tree (brackets
/// not counted)"; "up to that length, writing once more alters nothing"; no
/// pair of brackets can go.
#[test]
fn random_texts() {
    with_room(|| {
        let mut random = Random::new(7);
        let (mut written, mut long) = (0, 0);
        while written < 20_000 {
            let text = generate::text(&mut random);
            let Ok(house) = write(&text) else { continue };
            written += 1;
            let (before, after) = (functions(&text), functions(house.as_bytes()));
            assert_eq!(trees(&before), trees(&after), "{house}");
            assert_eq!(reference::house::house(&after), house);
            if house.len() > 2048 {
                long += 1;
                continue;
            }
            assert_eq!(check(house.as_bytes()), Ok(()), "{house}");
            assert_eq!(write(house.as_bytes()).as_ref(), Ok(&house));
            if written % 20 == 0 {
                assert!(no_pair_can_go(&house, &trees(&after)), "{house}");
            }
        }
        assert!(long > 0, "some are longer than 2,048 bytes");
    });
}

fn functions(text: &[u8]) -> Vec<Function> {
    parse(&split(text).expect("tokens")).expect("a program")
}

/// Without a pair of brackets it is no program, or another one.
fn no_pair_can_go(text: &str, tree: &[String]) -> bool {
    let bytes = text.as_bytes();
    let mut open = Vec::new();
    for (place, byte) in bytes.iter().enumerate() {
        match byte {
            b'(' => open.push(place),
            b')' => {
                let start = open.pop().expect("pairs");
                let mut less = bytes.to_vec();
                (less[start], less[place]) = (b' ', b' ');
                let parsed = split(&less).ok().and_then(|tokens| parse(&tokens).ok());
                if parsed.is_some_and(|functions| trees(&functions) == tree) {
                    return false;
                }
            }
            _ => {}
        }
    }
    true
}

/// What a program is, brackets and places not counted: a line for each part.
fn trees(functions: &[Function]) -> Vec<String> {
    let mut parts = Vec::new();
    for function in functions {
        let parameters: Vec<&String> = function.parameters.iter().map(|name| &name.text).collect();
        parts.push(format!("function {} {parameters:?}", function.name.text));
        statements(&function.body, &mut parts);
    }
    parts
}

fn statements(all: &[Statement], parts: &mut Vec<String>) {
    parts.push("{".into());
    for statement in all {
        one(&statement.kind, parts);
    }
    parts.push("}".into());
}

fn one(statement: &StatementKind, parts: &mut Vec<String>) {
    match statement {
        StatementKind::Empty => parts.push("empty".into()),
        StatementKind::Declare(name) => parts.push(format!("declare {}", name.text)),
        StatementKind::DeclareFree(name, None) => parts.push(format!("free {}", name.text)),
        StatementKind::DeclareFree(name, Some(pair)) => {
            let Pair { low, high, minus, .. } = pair;
            parts.push(format!("free {} {low} {high} {minus:?}", name.text));
        }
        StatementKind::Assign(name, value) => {
            parts.push(format!("assign {} {:?}", name.text, plain(value)));
        }
        StatementKind::Work(value) => parts.push(format!("work {:?}", plain(value))),
        StatementKind::Braces(inner) => statements(inner, parts),
        StatementKind::If(condition, yes, no) => {
            parts.push(format!("if {:?}", tests(&condition.0)));
            one(&yes.kind, parts);
            parts.push("else".into());
            one(&no.kind, parts);
        }
        StatementKind::While(condition, body) => {
            parts.push(format!("while {:?}", tests(&condition.0)));
            one(&body.kind, parts);
        }
        StatementKind::Return(value) => parts.push(format!("return {:?}", plain(value))),
        StatementKind::Fail => parts.push("fail".into()),
    }
}

fn tests(alternatives: &[Vec<Test>]) -> Vec<Vec<(String, Vec<Plain>)>> {
    let one = |test: &Test| match test {
        Test::Fixed(value) => (value.to_string(), Vec::new()),
        Test::Compare(left, sign, right) => (format!("{sign:?}"), vec![plain(left), plain(right)]),
    };
    alternatives.iter().map(|all| all.iter().map(one).collect()).collect()
}

/// "rules in one hand": what is written for a rule of this repository stands in house style.
#[test]
fn rules_stand_in_house_style() {
    for file in std::fs::read_dir(folder()).expect("the folder rules") {
        let path = file.expect("a file").path();
        if path.extension().is_some_and(|kind| kind == "muli") {
            let text = std::fs::read(&path).expect("a rule");
            let house = write(&text).expect("an accepted rule");
            assert_eq!(write(house.as_bytes()), Ok(house), "{}", path.display());
        }
    }
}
