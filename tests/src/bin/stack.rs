//! Calls the linked lister with texts that nest, chain or repeat as much as
//! they can, on a thread with a stack of 2 MiB, and compares the answers.
//!
//! The name of each text is printed before it is tried: if the stack does not
//! suffice, the last line says for which.

use reference::examples::declarations;
use reference::search::{Ending, LEAST_SCRATCH};
use reference::{cases, check, house, linked, list, remarks, with_room, with_stack, Job};

const STACK: usize = 2 << 20;
const LENGTH: usize = 2_048;

fn main() {
    if !linked::LINKED {
        eprintln!("Built without PLANS_LIB: there is nothing to call.");
        std::process::exit(2);
    }
    let texts = texts();
    for (name, text) in &texts {
        println!("{name} ({} bytes)", text.len());
        let checked = with_room(|| check(text));
        let expected = match checked {
            Ok(()) => [0, 0],
            Err((number, place)) => [number, place as u32],
        };
        let mut answer = [u32::MAX; 2];
        with_stack(STACK, || linked::check(text, &mut answer));
        assert_eq!(answer, expected, "check, {name}");

        let found = with_room(|| remarks(text, 16)).unwrap_or_default();
        let mut answer = [u32::MAX; 3];
        let mut offsets = [0; 16];
        with_stack(STACK, || linked::remarks(text, &mut offsets, &mut answer));
        assert_eq!(answer, [expected[0], expected[1], found.len() as u32], "remarks, {name}");
        assert_eq!(offsets[..found.len()], found, "remarks, {name}");

        let styled = with_room(|| house::write(text)).unwrap_or_default();
        let mut answer = [u32::MAX; 3];
        let mut out = vec![7; 131_072];
        with_stack(STACK, || linked::write(text, &mut out, &mut answer));
        assert_eq!(answer, [expected[0], expected[1], styled.len() as u32], "written, {name}");
        assert_eq!(out[..styled.len()], *styled.as_bytes(), "written, {name}");

        if linked::LISTS {
            lists(name, text);
        }
    }
    println!("{} texts answered on a stack of {STACK} bytes", texts.len());
}

fn lists(name: &str, text: &[u8]) {
    let job = Job {
        low: 0,
        high: 2,
        steps: 1_000,
        skip: 0,
        budget: 100_000,
        rows_len: 1_000,
        scratch_len: LEAST_SCRATCH,
    };
    let reference = with_room(|| list(text, &job));
    if let Ok(listing) = &reference {
        let cut = if listing.ending == Ending::Cut { ", cut" } else { "" };
        println!("  listed: {} moves{cut}", listing.moves);
    }
    let mut rows = vec![0; job.rows_len];
    let mut scratch = vec![7; job.scratch_len];
    let mut answer = [u32::MAX; 5];
    with_stack(STACK, || linked::list(text, &job, &mut rows, &mut scratch, &mut answer));
    assert_eq!(answer, cases::list_answer(&reference), "list, {name}");
    let left = if reference.is_ok() { 0 } else { 7 };
    assert!(scratch.iter().all(|word| *word == left), "scratch, {name}");
    let mut expected = reference.map_or(Vec::new(), |listing| listing.rows.concat());
    expected.resize(job.rows_len, 0);
    assert_eq!(rows, expected, "rows, {name}");
}

/// The unit again and again, up to the greatest length.
fn filled(unit: &str) -> Vec<u8> {
    unit.bytes().cycle().take(LENGTH).collect()
}

/// `before`, the unit as often as fits, the middle, and for each unit its
/// counterpart, then `after`.
fn framed(before: &str, unit: &str, middle: &str, counterpart: &str, after: &str) -> Vec<u8> {
    let fixed = before.len() + middle.len() + after.len();
    let count = (LENGTH - fixed) / (unit.len() + counterpart.len());
    nested(before, unit, middle, counterpart, after, count)
}

fn nested(
    before: &str,
    unit: &str,
    middle: &str,
    counterpart: &str,
    after: &str,
    count: usize,
) -> Vec<u8> {
    let text = [before, &unit.repeat(count), middle, &counterpart.repeat(count), after].concat();
    assert!(text.len() <= LENGTH);
    text.into_bytes()
}

/// Functions that call each other in a ring, main among them.
fn ring(count: usize, body: impl Fn(&str) -> String) -> Vec<u8> {
    let name = |number: usize| match number % count {
        0 => "main".to_string(),
        other => format!("f{other}"),
    };
    (0..count)
        .map(|number| format!("int {}() {{ {} }}\n", name(number), body(&name(number + 1))))
        .collect::<String>()
        .into_bytes()
}

/// A chain as long as can be within each kind of nesting, nearly as deep as is
/// accepted; `body` declares a and x.
fn deep_chains(body: &str) -> Vec<(String, Vec<u8>)> {
    let mut texts = Vec::new();
    let statements = [
        ("braces", "{", "}", 21),
        ("if arms", "if(a<1)", "else;", 21),
        ("else arms", "if(a<1);else ", "", 21),
        ("loops", "while(a<1)", "", 21),
        ("braced arms", "if(a<1){", "}else;", 10),
        ("braced loops", "while(a<1){", "}", 10),
    ];
    let expressions = [("brackets", "(", ")", 22), ("calls", "f(", ")", 22)];
    let none = [("nothing", "", "", 0)];
    let sums = [("a sum", "a", "+x", ""), ("a product", "a", "*x", "")];
    let chains = [
        ("a sum", "x=a", "+x", ";"),
        ("a sum of calls", "x=f(a)", "+f(x)", ";"),
        ("tests with &&", "if(a<9", "&&x<9", ");else;"),
        ("tests with ||", "if(a>9", "||x>9", ");else;"),
        ("a loop's tests", "while(a<0", "||x<0", ");"),
        ("assignments", "{x=a;", "x=x;", "}"),
    ];
    let mut add = |(nest, open, close, deep): (&str, &str, &str, usize), chain, last: &str| {
        let (name, begin, unit, end): (&str, &str, &str, &str) = chain;
        let before = [body, &open.repeat(deep), begin].concat();
        let after = [end, &close.repeat(deep), last, " return a; }"].concat();
        texts.push((format!("{name} within {nest}"), framed(&before, unit, "", "", &after)));
    };
    for nest in statements.into_iter().chain(none) {
        for chain in chains {
            add(nest, chain, "");
        }
    }
    for nest in expressions.into_iter().chain(none) {
        for chain in sums {
            add(nest, chain, ";");
        }
    }
    texts
}

/// More declarations, parameters, arguments and functions than are accepted:
/// every rule before 10 has to go through all of them.
fn many(functions: &str) -> Vec<(String, Vec<u8>)> {
    let mut texts = Vec::new();
    for (name, last) in [("", "fail;}"), (" and a read", "return a;}")] {
        let text = ["int main(){", &declarations(297), last].concat();
        texts.push((format!("297 declarations{name}"), text.into_bytes()));
    }
    let parameters: Vec<String> = (0..170).map(|n| format!("int p{n}")).collect();
    let text = format!(
        "int main(){{int x free;return f({});}}int f({}){{fail;}}",
        vec!["x"; 170].join(","),
        parameters.join(",")
    );
    assert!(text.len() <= LENGTH);
    texts.push(("170 parameters and arguments".into(), text.into_bytes()));
    let many: String = (0..120).map(|n| format!("int g{n}(){{fail;}}")).collect();
    let text = format!("{functions}int main(){{fail;}}{many}");
    assert!(text.len() <= LENGTH);
    texts.push(("122 functions".into(), text.into_bytes()));
    texts
}

fn texts() -> Vec<(String, Vec<u8>)> {
    let mut texts: Vec<(String, Vec<u8>)> = Vec::new();
    let units = [
        "(",
        "{",
        "-",
        "if (",
        "f(f(f(",
        "a+",
        "a*",
        ";",
        "1<1&&",
        "1<1||",
        "int ",
        "int f(",
        "int f(){",
        "!",
        "=",
        " ",
        "\n",
        "a",
        "9",
        "}",
        ")",
        "while(",
        "while(true)",
        "if(true)",
        "else ",
        "return ",
        "true&&",
        "f(1,",
        "(-",
        "a=",
        "fail;",
        "int a;",
        "int a free;",
    ];
    for unit in units {
        texts.push((format!("only {unit:?}"), filled(unit)));
        for (kind, before) in [
            ("after a body's brace", "int main() { "),
            ("after return", "int main() { return "),
            ("in a condition", "int main() { if ("),
            ("in a loop's condition", "int main() { while (true && "),
        ] {
            let mut text = before.as_bytes().to_vec();
            text.extend(filled(unit));
            text.truncate(LENGTH);
            texts.push((format!("{unit:?} {kind}"), text));
        }
    }
    let functions = "int f(int a) { return a; } ";
    let body = format!("{functions}int main() {{ int a free; ");
    // Balanced, too deep by far, and chains that are accepted.
    for (name, unit, middle, counterpart, after) in [
        ("brackets", "(", "1", ")", "; return 1; }"),
        ("braces", "{", ";", "}", " return 1; }"),
        ("calls", "f(", "1", ")", "; return 1; }"),
        ("brackets in sums", "1+(", "1", ")", "; return 1; }"),
        ("brackets in products", "2*(", "1", ")*3", "; return 1; }"),
        ("if arms", "if(true)", ";", "else;", " return 1; }"),
        ("else arms", "if(true);else ", ";", "", " return 1; }"),
        ("loops", "while(a<1)", ";", "", " return 1; }"),
        ("braced loops", "while(a<1){", ";", "}", " return 1; }"),
        ("empty statements", ";", "", "", " return 1; }"),
        ("empty braces", "{}", "", "", " return 1; }"),
        ("assignments", "a=a;", "", "", " return a; }"),
        ("doublings", "a=a+a;", "", "", " return a; }"),
        ("squares", "a=a*a;", "", "", " return a; }"),
        ("works", "a;", "", "", " return a; }"),
        ("returns", "return a;", "", "", " fail; }"),
        ("choices", "if(a*a<2);else;", "", "", " return a; }"),
    ] {
        texts.push((format!("balanced {name}"), framed(&body, unit, middle, counterpart, after)));
    }
    for (name, before, unit, after) in [
        ("a sum", "return a", "+a", "; }"),
        ("a difference", "return a", "-1", "; }"),
        ("a product", "return a", "*a", "; }"),
        ("a sum of calls", "return f(a)", "+f(a)", "; }"),
        ("a sum of brackets", "return (a)", "+(a)", "; }"),
        ("true &&", "if (true", "&&true", ") return 1; else fail; }"),
        ("false ||", "if (false", "||false", ") return 1; else fail; }"),
        ("tests with &&", "if (a<9", "&&a<9", ") return 1; else fail; }"),
        ("tests with ||", "if (a>9", "||a>9", ") return 1; else fail; }"),
        ("a sum in a test", "if (a", "+a", "<a) return 1; else return 2; }"),
        ("a sum as an argument", "return f(a", "+a", "); }"),
    ] {
        texts.push((
            format!("chain: {name}"),
            framed(&(body.clone() + before), unit, "", "", after),
        ));
    }
    let minus = format!("{functions}int main() {{ return 1");
    texts.push(("1--1--1".into(), framed(&minus, "--1", "", "", "; }")));
    // Just as deep as is accepted, and one deeper.
    for count in [22, 23, 24] {
        for (name, unit, middle, counterpart, after) in [
            ("brackets", "(", "a", ")", "; return 1; }"),
            ("calls", "f(", "a", ")", "; return 1; }"),
            ("braces", "{", ";", "}", " return 1; }"),
            ("if arms", "if(a<1)", ";", "else;", " return 1; }"),
            ("else arms", "if(a<1);else ", ";", "", " return 1; }"),
            ("loops", "while(a<1)", "a=a+1;", "", " return 1; }"),
        ] {
            let text = nested(&body, unit, middle, counterpart, after, count);
            texts.push((format!("{count} deep {name}"), text));
        }
    }
    // Arms and loops with braces are two deeper each.
    for count in [11, 12] {
        for (name, unit, middle, counterpart, after) in [
            ("braced arms", "if(a<1){", ";", "}else;", " return 1; }"),
            ("braced else arms", "if(a<1);else{", ";", "}", " return 1; }"),
            ("braced loops", "while(a<1){", "a=a+1;", "}", " return 1; }"),
        ] {
            let text = nested(&body, unit, middle, counterpart, after, count);
            texts.push((format!("{count} deep {name}"), text));
        }
    }
    texts.extend(deep_chains(&format!("{body}int x; x=0; ")));
    texts.extend(many(functions));
    texts.push((
        "1,000 statements".into(),
        format!("int main() {{ {} return 1; }}", ";".repeat(1_000)).into_bytes(),
    ));
    for count in [1, 2, 15, 16, 17] {
        texts.push((format!("a ring of {count}"), ring(count, |next| format!("return {next}();"))));
        texts.push((
            format!("a ring of {count} with sums"),
            ring(count, |next| format!("int a free; return ((a + {next}()) * ({next}()));")),
        ));
        texts.push((
            format!("a ring of {count} with tests"),
            ring(count, |next| format!("while ({next}() < {next}()) ; return {next}() + 1;")),
        ));
    }
    // Calls to the greatest depth, each from deep within brackets.
    let deep = format!("int main() {{ return {}main(){}; }}", "(".repeat(23), ")".repeat(23));
    texts.push(("calls from within brackets".into(), deep.into_bytes()));
    let deep = format!(
        "int f(int a) {{ {} return {}f(a + 1){}; {} fail; }} int main() {{ return f(0); }}",
        "if (true) {".repeat(5),
        "(".repeat(12),
        ")".repeat(12),
        "} else ; ".repeat(5),
    );
    texts.push(("calls from within arms and brackets".into(), deep.into_bytes()));
    texts
}
