//! The reference's readers against the grammar itself, kept here as data and
//! followed by Earley's method, which knows after each token whether some
//! program begins so.

use reference::generate;
use reference::lexer::{tokens, Kind, Token};
use reference::parser::parse;
use reference::random::Random;
use reference::with_room;

/// Each rule: what it makes, and of what. Names of rules are in capitals, the
/// words `name` and `number` stand for all such tokens.
const GRAMMAR: [(&str, &str); 48] = [
    ("PROGRAM", ""),
    ("PROGRAM", "PROGRAM FUNCTION"),
    ("FUNCTION", "int name ( PARAMETERS ) { STATEMENTS }"),
    ("PARAMETERS", ""),
    ("PARAMETERS", "SOME_PARAMETERS"),
    ("SOME_PARAMETERS", "int name"),
    ("SOME_PARAMETERS", "SOME_PARAMETERS , int name"),
    ("STATEMENTS", ""),
    ("STATEMENTS", "STATEMENTS STATEMENT"),
    ("STATEMENT", ";"),
    ("STATEMENT", "int name ;"),
    ("STATEMENT", "int name free ;"),
    ("STATEMENT", "int name free END .. END ;"),
    ("END", "number"),
    ("END", "- number"),
    ("STATEMENT", "name = SUM ;"),
    ("STATEMENT", "SUM ;"),
    ("STATEMENT", "{ STATEMENTS }"),
    ("STATEMENT", "if ( CONDITION ) STATEMENT else STATEMENT"),
    ("STATEMENT", "while ( CONDITION ) STATEMENT"),
    ("STATEMENT", "return SUM ;"),
    ("STATEMENT", "fail ;"),
    ("SUM", "PRODUCT"),
    ("SUM", "SUM + PRODUCT"),
    ("SUM", "SUM - PRODUCT"),
    ("PRODUCT", "OPERAND"),
    ("PRODUCT", "PRODUCT * OPERAND"),
    ("OPERAND", "number"),
    ("OPERAND", "- number"),
    ("OPERAND", "name"),
    ("OPERAND", "name ( ARGUMENTS )"),
    ("OPERAND", "( SUM )"),
    ("ARGUMENTS", ""),
    ("ARGUMENTS", "SOME_ARGUMENTS"),
    ("SOME_ARGUMENTS", "SUM"),
    ("SOME_ARGUMENTS", "SOME_ARGUMENTS , SUM"),
    ("CONDITION", "ALL"),
    ("CONDITION", "CONDITION || ALL"),
    ("ALL", "TEST"),
    ("ALL", "ALL && TEST"),
    ("TEST", "true"),
    ("TEST", "false"),
    ("TEST", "SUM < SUM"),
    ("TEST", "SUM <= SUM"),
    ("TEST", "SUM > SUM"),
    ("TEST", "SUM >= SUM"),
    ("TEST", "SUM == SUM"),
    ("TEST", "SUM != SUM"),
];

struct Rule {
    makes: &'static str,
    of: Vec<&'static str>,
}

/// A rule, how much of it has been seen, and where it began.
type Item = (usize, usize, usize);

fn word(token: &Token) -> String {
    match token.kind {
        Kind::Name => "name".to_string(),
        Kind::Number(_) => "number".to_string(),
        Kind::Fixed | Kind::End => String::from_utf8_lossy(token.bytes).into_owned(),
    }
}

/// The place of the first token that no program could have there.
fn first_wrong(rules: &[Rule], tokens: &[Token]) -> Option<usize> {
    let mut sets: Vec<Vec<Item>> = vec![Vec::new()];
    let start = rules.iter().enumerate().filter(|(_, rule)| rule.makes == "PROGRAM");
    sets[0].extend(start.map(|(number, _)| (number, 0, 0)));
    for (position, token) in tokens.iter().enumerate() {
        complete(rules, &mut sets, position);
        if token.kind == Kind::End {
            let ended = |item: &Item| {
                let rule = &rules[item.0];
                rule.makes == "PROGRAM" && item.1 == rule.of.len() && item.2 == 0
            };
            return if sets[position].iter().any(ended) { None } else { Some(token.place) };
        }
        let wanted = word(token);
        let fits = |item: &&Item| rules[item.0].of.get(item.1).is_some_and(|next| **next == wanted);
        let next: Vec<Item> =
            sets[position].iter().filter(fits).map(|item| (item.0, item.1 + 1, item.2)).collect();
        if next.is_empty() {
            return Some(token.place);
        }
        sets.push(next);
    }
    unreachable!("the end is a token")
}

/// Adds all items that follow at a position. Rules of nothing are completed
/// where they begin, so the set is gone through until it grows no more.
fn complete(rules: &[Rule], sets: &mut [Vec<Item>], position: usize) {
    loop {
        let before = sets[position].len();
        let mut at = 0;
        while at < sets[position].len() {
            let (number, seen, origin) = sets[position][at];
            let mut more: Vec<Item> = Vec::new();
            match rules[number].of.get(seen) {
                Some(next) => {
                    let begin = rules.iter().enumerate().filter(|(_, rule)| rule.makes == *next);
                    more.extend(begin.map(|(number, _)| (number, 0, position)));
                }
                None => {
                    let made = rules[number].makes;
                    let waits = |item: &&Item| rules[item.0].of.get(item.1) == Some(&made);
                    let on = sets[origin].iter().filter(waits);
                    more.extend(on.map(|item| (item.0, item.1 + 1, item.2)));
                }
            }
            for item in more {
                if !sets[position].contains(&item) {
                    sets[position].push(item);
                }
            }
            at += 1;
        }
        if sets[position].len() == before {
            return;
        }
    }
}

#[test]
fn readers_follow_the_grammar() {
    let rules: Vec<Rule> = GRAMMAR
        .iter()
        .map(|(makes, of)| Rule { makes, of: of.split_whitespace().collect() })
        .collect();
    with_room(|| {
        let mut random = Random::new(4);
        let (mut compared, mut wrong) = (0, 0);
        while compared < 1_500 {
            let text = generate::text(&mut random);
            let Ok(tokens) = tokens(&text) else { continue };
            if tokens.len() > 250 {
                continue;
            }
            let expected = first_wrong(&rules, &tokens);
            let place = parse(&tokens).err().map(|(number, place)| {
                assert_eq!(number, 4);
                place
            });
            assert_eq!(place, expected, "{}", String::from_utf8_lossy(&text));
            compared += 1;
            wrong += usize::from(expected.is_some());
        }
        println!("{compared} texts compared, {wrong} of them wrong");
        assert!(wrong > compared / 20);
    });
}
