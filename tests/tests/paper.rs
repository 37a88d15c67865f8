//! Every example of the paper, and every reading of it that has a number of
//! moves or a place, tried on the reference.

use reference::examples::{by_hand, Example};
use reference::lister::{print, shown};
use reference::search::LEAST_SCRATCH;
use reference::{check, list, remarks, with_room, Ending, Job, Listing, Refusal};

const A: &str = "int main() { int y free; if (y < 2) return y; else fail; }";

fn main_with(body: &str) -> String {
    format!("int main() {{ {body} }}")
}

fn job(low: i32, high: i32, steps: u32) -> Job {
    Job {
        low,
        high,
        steps,
        skip: 0,
        budget: 1_000_000,
        rows_len: 10_000,
        scratch_len: LEAST_SCRATCH,
    }
}

fn listed(text: &str, job: Job) -> Listing {
    list(text.as_bytes(), &job).expect("the job is not refused")
}

/// Result and values of each row.
fn rows(listing: &Listing) -> Vec<(i32, Vec<i32>)> {
    let row = |row: &[i32; 10]| (row[0], row[2..2 + row[1] as usize].to_vec());
    listing.rows.iter().map(row).collect()
}

fn ended(listing: &Listing) -> (Ending, usize, u32) {
    (listing.ending, listing.rows.len(), listing.moves)
}

fn checked(text: &str) -> Result<(), Refusal> {
    check(text.as_bytes())
}

// ---- Rules tried by hand ----

#[test]
fn tried_by_hand() {
    for (Example { name, text, job }, printed) in by_hand() {
        let answer = shown(&list(&text, &job));
        assert!(answer.starts_with(printed), "{name}: {answer}");
    }
}

#[test]
fn a_with_budgets() {
    let whole = listed(A, Job { budget: 9, ..job(0, 3, 100) });
    assert_eq!(ended(&whole), (Ending::Whole, 2, 9));
    assert_eq!(rows(&whole), [(0, vec![0]), (1, vec![1])]);
    let spent = listed(A, Job { budget: 8, ..job(0, 3, 100) });
    assert_eq!(ended(&spent), (Ending::Spent, 2, 8));
    assert_eq!(spent.rows, whole.rows);
    let none = listed(A, Job { budget: 0, ..job(0, 3, 100) });
    assert_eq!(ended(&none), (Ending::Spent, 0, 0));
}

#[test]
fn a_with_step_limits() {
    assert_eq!(ended(&listed(A, job(0, 3, 5))), (Ending::Whole, 2, 9));
    assert_eq!(ended(&listed(A, job(0, 3, 4))), (Ending::Cut, 0, 6));
}

#[test]
fn a_with_little_room() {
    let full = listed(A, Job { rows_len: 10, ..job(0, 3, 100) });
    assert_eq!(ended(&full), (Ending::Full, 1, 7));
    // The row without a place was found by the budget's last move.
    let last = listed(A, Job { rows_len: 19, budget: 7, ..job(0, 3, 100) });
    assert_eq!(ended(&last), (Ending::Full, 1, 7));
    let none = listed(A, Job { rows_len: 9, ..job(0, 3, 100) });
    assert_eq!(ended(&none), (Ending::Full, 0, 6));
    // Skipped rows need no place.
    let skipped = listed(A, Job { rows_len: 0, skip: 2, ..job(0, 3, 100) });
    assert_eq!(ended(&skipped), (Ending::Whole, 0, 9));
    let second = listed(A, Job { rows_len: 10, skip: 1, ..job(0, 3, 100) });
    assert_eq!(rows(&second), [(1, vec![1])]);
}

#[test]
fn true_stands_first() {
    let text = main_with("int a free; if (a > 1) return 1; else return 0;");
    let values: Vec<i32> = listed(&text, job(0, 3, 100)).rows.iter().map(|row| row[2]).collect();
    assert_eq!(values, [2, 3, 0, 1]);
}

#[test]
fn two_free_numbers() {
    let text = main_with("int a free; int b free; return a + b;");
    assert_eq!(
        rows(&listed(&text, job(0, 1, 100))),
        [(0, vec![0, 0]), (1, vec![0, 1]), (1, vec![1, 0]), (2, vec![1, 1])]
    );
}

#[test]
fn a_below_itself_is_a_choice() {
    let text = main_with("int a free; if (a < a) return 9; else return a;");
    let listing = listed(&text, job(1, 2, 100));
    assert_eq!(ended(&listing), (Ending::Whole, 2, 11));
    assert_eq!(rows(&listing), [(1, vec![1]), (2, vec![2])]);
}

#[test]
fn the_right_side_is_not_touched() {
    let text = "int f() { fail; } \
                int main() { int a free; if (a < 1 && f() == 0) return 1; else return 0; }";
    let listing = listed(text, job(0, 1, 100));
    assert_eq!(rows(&listing), [(0, vec![1])]);
    assert_eq!(listing.ending, Ending::Whole);
}

#[test]
fn an_endless_loop_is_cut() {
    let text = main_with("while (true) ; fail;");
    assert_eq!(ended(&listed(&text, job(0, 0, 50))), (Ending::Cut, 0, 51));
}

#[test]
fn arithmetic_wraps() {
    let sum = listed(&main_with("return 2147483647 + 1;"), job(0, 0, 100));
    assert_eq!(rows(&sum), [(-2147483648, vec![])]);
    let product = listed(&main_with("return 65536 * 65536;"), job(0, 0, 100));
    assert_eq!(rows(&product), [(0, vec![])]);
}

#[test]
fn empty_text() {
    assert_eq!(checked(""), Err((8, 0)));
    assert_eq!(list(b"", &job(0, 0, 1)), Err((8, 0)));
}

#[test]
fn logarithm() {
    let text = "int log(int x) {
        int y free;
        if (pow(2,y) == x) return y;
        else fail; }
    int pow(int b, int y) {
        int i; int r; i = 0; r = 1;
        while (i < y) {
            r = r * b; i = i + 1; }
        return r; }
    int main() { return log(1); }";
    let listing = listed(text, job(-2, 2, 1000));
    assert_eq!(rows(&listing), [(-2, vec![-2]), (-1, vec![-1]), (0, vec![0])]);
    assert_eq!(listing.ending, Ending::Whole);
}

#[test]
fn limits() {
    let mut text = A.as_bytes().to_vec();
    text.resize(2048, b' ');
    assert_eq!(check(&text), Ok(()));
    text.push(b' ');
    assert_eq!(check(&text), Err((1, 2048)));
    text.resize(5000, b'!');
    assert_eq!(check(&text), Err((1, 2048)));

    assert!(list(A.as_bytes(), &job(0, 4095, 100)).is_ok());
    assert_eq!(list(A.as_bytes(), &job(0, 4096, 100)), Err((13, 0)));
    assert_eq!(list(A.as_bytes(), &job(i32::MIN, i32::MAX, 100)), Err((13, 0)));

    let eight: String = (0..8).map(|n| format!("int v{n} free; ")).collect();
    let listing = listed(&main_with(&(eight.clone() + "return v7;")), job(0, 0, 50));
    assert_eq!(ended(&listing), (Ending::Whole, 1, 11));
    assert_eq!(listing.rows[0], [0, 8, 0, 0, 0, 0, 0, 0, 0, 0]);
    let nine = main_with(&(eight + "int v8 free; return v8;"));
    assert_eq!(ended(&listed(&nine, job(0, 0, 50))), (Ending::Cut, 0, 10));
}

// ---- The program ----

#[test]
fn the_program_prints() {
    assert_eq!(
        print(format!("job 0 3 100\n{A}").as_bytes()),
        "0 : 0\n1 : 1\nwhole 2 rows 9 moves\n"
    );
    assert_eq!(print(b"job 0 0 9\nint main() { return 7; }"), "7 :\nwhole 1 rows 3 moves\n");
    assert_eq!(print(b"job 0 0 9\n"), "refused 8 at 0\n");
}

#[test]
fn job_lines() {
    let accepted = ["job 0 0 9", "job -0 000 0000000009", "job -2147483648 -2147483648 9"];
    for line in accepted {
        assert_eq!(print(format!("{line}\n").as_bytes()), "refused 8 at 0\n", "{line}");
    }
    let bad = [
        "",
        "job",
        "job 0 0",
        "job 0 0 9 ",
        "job  0 0 9",
        "job 0 0 9 9",
        " job 0 0 9",
        "job 0 0 9\r",
        "job 0 0 +9",
        "job\t0 0 9",
        "job 0 0 -1",
        "job 0 0 00000000009",
        "job 2147483648 0 9",
        "job -2147483649 0 9",
        "job - 0 9",
        "job --1 0 9",
        "job 0 9999999999 9",
        "Job 0 0 9",
    ];
    for line in bad {
        assert_eq!(print(format!("{line}\n{A}").as_bytes()), "refused 16 at 0\n", "{line}");
    }
    assert_eq!(print(b"job 0 0 9"), "refused 16 at 0\n");
    assert_eq!(print(b""), "refused 16 at 0\n");
    for (line, number) in [
        ("job 0 0 -0", 14),
        ("job 0 0 1001", 14),
        ("job 0 0 2147483647", 14),
        ("job 1 0 0", 12),
        ("job 0 4096 0", 13),
    ] {
        assert_eq!(print(format!("{line}\n!").as_bytes()), format!("refused {number} at 0\n"));
    }
}

// ---- Refusals of list ----

#[test]
fn order_of_refusals() {
    let bad = Job { low: 1, high: 0, steps: 0, scratch_len: 16_383, ..job(0, 0, 1) };
    assert_eq!(list(b"!", &bad), Err((11, 0)));
    assert_eq!(list(b"!", &Job { scratch_len: 16_384, ..bad }), Err((12, 0)));
    assert_eq!(list(b"!", &Job { steps: 0, ..job(-2000, 2096, 0) }), Err((13, 0)));
    assert_eq!(list(b"!", &job(-2000, 2095, 0)), Err((14, 0)));
    assert_eq!(list(b"!", &job(-2000, 2095, 1001)), Err((14, 0)));
    assert_eq!(list(b"!", &job(-2000, 2095, 1000)), Err((2, 0)));
    assert_eq!(remarks(b"!", 15), Err((15, 0)));
    assert_eq!(remarks(b"!", 16), Err((2, 0)));
}

// ---- Readings: runs ----

#[test]
fn moves_of_the_readings() {
    let cases: [(&str, (i32, i32, u32), (Ending, usize, u32)); 9] = [
        // An assignment inside a block stays.
        ("int x; x = 0; { x = 1; } return x;", (0, 0, 100), (Ending::Whole, 1, 7)),
        // The call that is refused is not counted.
        ("return main();", (0, 0, 1000), (Ending::Cut, 0, 65)),
        // An arm's braces are a statement.
        ("if (true) { return 1; } else fail;", (0, 0, 100), (Ending::Whole, 1, 5)),
        // The condition is worked again after each turn.
        ("int i; i = 0; while (i < 1) i = i + 1; return i;", (0, 0, 100), (Ending::Whole, 1, 11)),
        // A unary minus, true, && and || are no steps.
        ("if (true && -1 < 0 || false) return -5; else fail;", (0, 0, 9), (Ending::Whole, 1, 5)),
        // a - a stays open, and its range is -1 to 1: a choice.
        ("int a free; if (a - a == 0) return 1; else fail;", (0, 1, 100), (Ending::Whole, 2, 10)),
        // 0 * a stays open, but its range is one number: decided.
        ("int a free; if (0 * a == 0) return 1; else fail;", (0, 1, 100), (Ending::Whole, 2, 8)),
        // One number in the window: open, but decided.
        ("int a free; if (a == 3) return 1; else fail;", (3, 3, 100), (Ending::Whole, 1, 6)),
        // A free declaration in a loop is a new unknown each time.
        (
            "int i; i = 0; while (i < 2) { int a free; i = i + 1; } return i;",
            (0, 1, 100),
            (Ending::Whole, 4, 22),
        ),
    ];
    for (body, (low, high, steps), end) in cases {
        assert_eq!(ended(&listed(&main_with(body), job(low, high, steps))), end, "{body}");
    }
    let block = listed(&main_with("int x; x = 0; { x = 1; } return x;"), job(0, 0, 100));
    assert_eq!(rows(&block), [(1, vec![])]);
}

#[test]
fn windows_narrow() {
    // Narrowed to 0..1 on the true side and to 2..9 on the false side: 2 and
    // 8 settings, beside 4 steps, 2 returns and a choice taken back.
    for test in ["a < 2", "2 > a", "a <= 1", "1 >= a"] {
        let text = main_with(&format!("int a free; if ({test}) return 1; else return 0;"));
        assert_eq!(ended(&listed(&text, job(0, 9, 100))), (Ending::Whole, 10, 17), "{test}");
    }
    // An equality narrows to one number; its false side only loses an end.
    for (test, settings) in
        [("a == 0", 1 + 9), ("a == 9", 1 + 9), ("a == 5", 1 + 10), ("5 != a", 10 + 1)]
    {
        let text = main_with(&format!("int a free; if ({test}) return 1; else return 0;"));
        assert_eq!(
            ended(&listed(&text, job(0, 9, 100))),
            (Ending::Whole, 10, 7 + settings),
            "{test}"
        );
    }
    // a + 0 is not just a free variable.
    let text = main_with("int a free; if (a + 0 < 2) return 1; else return 0;");
    assert_eq!(ended(&listed(&text, job(0, 9, 100))), (Ending::Whole, 10, 1 + 7 + 20));
    // The other side may be open, if its range is one number.
    let text = main_with("int a free; if (a < 0 * a + 2) return 1; else return 0;");
    assert_eq!(ended(&listed(&text, job(0, 9, 100))), (Ending::Whole, 10, 2 + 7 + 10));
    // The window is wide again on the false side.
    let text =
        main_with("int a free; if (a + 0 < 9) if (a < 1) return 1; else return 2; else return 3;");
    assert_eq!(ended(&listed(&text, job(0, 9, 100))).1, 10);
}

#[test]
fn ranges_wrap() {
    // The sum leaves 32 bits, so its range is all of them and a choice is made.
    let text = main_with("int a free; if (a + 2147483647 > 0) return 1; else return 0;");
    let listing = listed(&text, job(0, 1, 100));
    assert_eq!(rows(&listing), [(1, vec![0]), (0, vec![1])]);
}

#[test]
fn no_cut_for_a_path_that_no_setting_takes() {
    // a * a == 2 is not decided by ranges, but no number meets it.
    let text = main_with("int a free; if (a * a == 2) while (true) ; else return a; fail;");
    let listing = listed(&text, job(0, 3, 100));
    assert_eq!((listing.ending, listing.rows.len()), (Ending::Whole, 4));
}

#[test]
fn ended_with_the_budget_made() {
    // Only a choice that is already false is left: the search has ended.
    let text = main_with("int a free; if (a < 1) fail; else return 1;");
    let whole = listed(&text, job(0, 1, 100));
    assert_eq!(ended(&whole), (Ending::Whole, 1, 8));
    assert_eq!(ended(&listed(&text, Job { budget: 8, ..job(0, 1, 100) })), (Ending::Whole, 1, 8));
    assert_eq!(ended(&listed(&text, Job { budget: 7, ..job(0, 1, 100) })), (Ending::Spent, 0, 7));
}

#[test]
fn shared_expressions_stay_small() {
    // 2^60 unfolded leaves.
    let chain = "x = x + x; ".repeat(60);
    let text = main_with(&format!("int x free; {chain} if (x < 1) return 1; else return x;"));
    let listing = listed(&text, job(0, 3, 1000));
    assert_eq!((listing.ending, listing.rows.len()), (Ending::Whole, 4));
}

// ---- Texts ----

/// The text, in which the place is marked by `@`, is refused with the number.
fn refused(number: u32, marked: &str) {
    let place = marked.find('@').expect("a marked place");
    let text = marked.replacen('@', "", 1);
    assert_eq!(checked(&text), Err((number, place)), "{text}");
}

fn refused_main(number: u32, marked: &str) {
    refused(number, &main_with(marked));
}

#[test]
fn bytes_and_tokens() {
    for body in ["@!", "@&", "@|", "@_a = 1;", "12@_;", "@%", "&&@&", "!==@!", "@\u{e9}", "@\0"] {
        refused_main(2, body);
    }
    // 2 over the whole text before 3, 3 before 4.
    refused(2, "99999999999 @!");
    refused(3, "int int @aaaaaaaaaaaaaaaaa");
    refused_main(3, "return @2147483648;");
    refused_main(3, "return -@2147483648;");
    refused_main(3, "return @99999999999999999999999999999999999999;");
    assert_eq!(checked(&main_with("return 0000000000000000000000000002147483647;")), Ok(()));
    refused_main(3, "int a234567890123456; int @a2345678901234567; return 1;");
    refused_main(4, "return 12@ab;");
    assert_eq!(checked("int\tmain(\r)\n{return 1;}"), Ok(()));
}

#[test]
fn grammar() {
    refused(4, "@;");
    refused(4, "int @int");
    refused(4, "int main() { return 1; }@}");
    refused(4, "int main() { return 1; @");
    refused(4, "int main() { return 1;   @");
    refused(4, "int main(@");
    refused(4, "int main(@a) { return 1; }");
    refused(4, "int main(int a, @) { return 1; }");
    refused(4, "int main() @return 1;");
    refused_main(4, "if (true) ; @return 1;");
    refused_main(4, "if ((a @< 1)) ; else ; return 1;");
    refused_main(4, "if (1@) ; else ; return 1;");
    refused_main(4, "if (1 < 2 @< 3) ; else ; return 1;");
    refused_main(4, "return -@-5;");
    refused_main(4, "return -@x;");
    refused_main(4, "return -@(1);");
    refused_main(4, "return 1 @< 2;");
    refused_main(4, "f() @= 2;");
    refused_main(4, "(x) @= 2;");
    refused_main(4, "x @== 2;");
    refused_main(4, "return@;");
    refused_main(4, "return f(1,@);");
    refused_main(4, "int x @= 1;");
    refused_main(4, "@true;");
    refused_main(4, "int x free@, y;");
    refused_main(4, "fail @1;");
    refused_main(4, "while (@) ;");
    assert_eq!(checked(&main_with("return 1--5;")), Ok(()));
    assert_eq!(rows(&listed(&main_with("return 1--5;"), job(0, 0, 9))), [(6, vec![])]);
    assert_eq!(rows(&listed(&main_with("return 10-2-3*2;"), job(0, 0, 9))), [(2, vec![])]);
}

#[test]
fn depth() {
    let braces = |n: usize, inner: &str| "{ ".repeat(n) + inner + &" }".repeat(n);
    assert_eq!(checked(&main_with(&(braces(23, ";") + " return 1;"))), Ok(()));
    refused_main(5, &(braces(24, "@;") + " return 1;"));
    refused_main(5, &(braces(24, "@{ return ((1)); }") + " return 1;"));
    let brackets = |n: usize, inner: &str| "(".repeat(n) + inner + &")".repeat(n);
    assert_eq!(checked(&main_with(&format!("return {};", brackets(23, "1")))), Ok(()));
    refused_main(5, &format!("return {};", brackets(24, "@-1")));
    // Mixed: an arm is one deeper, its braces' statements two.
    let ifs = |n: usize, inner: &str| "if (true) { ".repeat(n) + inner + &" } else ; ".repeat(n);
    assert_eq!(checked(&main_with(&(ifs(11, "if (1 < (1)) ; else ;") + " return 1;"))), Ok(()));
    refused_main(5, &(ifs(11, "if (1 < ((@1))) ; else ;") + " return 1;"));
    refused_main(5, &(ifs(11, "while (true) { @; }") + " return 1;"));
    // Arguments: the first token of the argument.
    let calls = |n: usize, inner: &str| "f(0, ".repeat(n) + inner + &")".repeat(n);
    let f = "int f(int a, int b) { return a; }";
    assert_eq!(checked(&(main_with(&format!("return {};", calls(23, "1"))) + f)), Ok(()));
    refused(
        5,
        &(main_with(&format!("return {}f(@0, 1){};", "f(0, ".repeat(23), ")".repeat(23))) + f),
    );
    // The whole text is looked through for 5 before 6.
    refused_main(5, &format!("return x + {};", brackets(24, "@1")));
}

#[test]
fn names() {
    refused_main(6, "return @x;");
    refused_main(6, "@x = 1; return 1;");
    refused_main(6, "@x = y; int x; return 1;");
    refused_main(6, "int x; int @x; return 1;");
    refused_main(6, "int x; { int @x; } return 1;");
    refused_main(6, "{ int x; } return @x;");
    refused_main(6, "if (true) int x; else @x = 1; return 1;");
    refused_main(6, "while (true) int x; return @x;");
    refused_main(6, "return @f();");
    refused_main(6, "int f; return @f();");
    refused(6, "int f() { return 1; } int main() { return @f; }");
    refused(6, "int f(int a, int @a) { return 1; } int main() { return 1; }");
    refused(6, "int f(int a) { int @a; return 1; } int main() { return 1; }");
    refused(6, "int main() { return 1; } int @main(int a) { return b; }");
    refused(6, "int f() { return 1; } int @f() { return 1; } int main() { return 1; }");
    for body in [
        "int main; main = 1; return main;",
        "{ int x; } int x; x = 1; return x;",
        "if (true) int x; else int x; return 1;",
        "while (false) int x; int x; return 1;",
        "{ int x; } { int x free; x = 1; } return 1;",
    ] {
        assert_eq!(checked(&main_with(body)), Ok(()), "{body}");
    }
}

#[test]
fn calls_and_main() {
    refused(7, "int main() { return @f(); } int f(int a) { return 1; }");
    refused(7, "int main() { return f(@f(1, 2)); } int f(int a) { return 1; }");
    refused_main(7, "return @main(1);");
    refused(7, "int f(int a) { return @f(); }");
    refused(8, "int f() { return 1; } @");
    refused(8, "int f() { return 1; }  \n@");
    refused(8, "int f() { } int @main(int a) { return 1; }");
    refused(7, "int main(int a) { return 1; } int f() { return @main(); }");
}

#[test]
fn ends() {
    for body in [
        "",
        "return 1; ;",
        "while (true) ;",
        "{ return 1; } { }",
        "if (true) return 1; else ;",
        "1;",
        "while (true) return 1;",
    ] {
        refused(9, &format!("int main() {{ {body} @}}"));
    }
    for body in [
        "fail;",
        "{ { fail; } }",
        "if (true) { return 1; } else { ; fail; }",
        "return 1; return 2;",
    ] {
        assert_eq!(checked(&main_with(body)), Ok(()), "{body}");
    }
    refused(9, "int f() { @} int main() { }");
}

/// Slip 1: a variable is read only where it holds something on every way.
#[test]
fn assigned() {
    for body in [
        "int x; return @x;",
        "int x; @x; return 1;",
        "int x; x = @x + 1; return x;",
        "int x; int y; y = 1 + (2 * @x); return y;",
        "int x; int y; x = 1; return x + @y;",
        "int x; return @x + x;",
        // An if: the arms meet.
        "int x; if (1 < 2) x = 1; else ; return @x;",
        "int x; if (1 < 2) ; else x = 1; return @x;",
        "int x; if (1 < 2) x = 1; else x = @x; return x;",
        "int x; if (1 < 2) { if (2 < 3) x = 1; else ; } else x = 2; return @x;",
        "int x; if (1 < 2) return 1; else ; return @x;",
        // A loop: its body does not count after it.
        "int x; while (1 < 2) x = 1; return @x;",
        "int x; while (@x < 1) x = 1; return x;",
        "int x; while (false) x = 1; return @x;",
        "int x; while (1 < 2) { x = 1; return x; } return @x;",
        "int i; int y; i = 0; while (i < 2) { int x; if (i < 1) x = 5; else ; y = @x; i = i + 1; } return i;",
        // Conditions.
        "int x; if (1 < 2 || @x < 1) return 1; else return 2;",
        "int x; if (1 < 2 && @x < 1) return 1; else return 2;",
        "int x; if (true && @x < 1) return 1; else return 2;",
        "int x; if (false || @x < 1) return 1; else return 2;",
        "int x; if (true && 1 < 2) x = 1; else ; return @x;",
        "int x; if (1 < 2 && true) x = 1; else ; return @x;",
        "int x; if (false || 1 < 2) x = 1; else ; return @x;",
        "int x; if (false && true || @x < 1) return 1; else return 2;",
        // A declaration of its own in each block.
        "{ int x; x = 1; } int x; return @x;",
        "{ int x; x = 1; } { int x; return @x; }",
        "if (1 < 2) { int x; x = 1; return x; } else { int x; return @x; }",
    ] {
        refused_main(17, body);
    }
    for body in [
        "int x; x = 1; return x;",
        "int x; return 1;",
        "int x free; return x;",
        "int x; { { x = 1; } } return x;",
        "int x; if (1 < 2) x = 1; else x = 2; return x;",
        "int x; if (1 < 2) x = 1; else fail; return x;",
        "int x; if (1 < 2) { return 1; } else { x = 1; } return x;",
        "int x; if (1 < 2) x = 1; else while (true) ; return x;",
        "int x; if (true) x = 1; else ; return x;",
        "int x; if (false) ; else x = 1; return x;",
        "int x; if (true || 1 < 2) x = 1; else ; return x;",
        "int x; if (1 < 2 || true) x = 1; else ; return x;",
        "int x; if (true && true) x = 1; else ; return x;",
        "int x; if (1 < 2 && false) return x; else return 1;",
        "int x; if (true || x < 1) return 1; else return 2;",
        "int x; if (false && x < 1) return 1; else return 2;",
        "int x; if (true || 1 < 2 && x < 1) return 1; else return x;",
        "int x; x = 1; while (x < 3) x = x + 1; return x;",
        "int x; while (true) { x = 1; return x; } fail;",
        "int i; i = 0; while (i < 2) { int x; x = i; i = x + 1; } return i;",
        // No run comes there, and everything is assigned.
        "return 1; int x; return x;",
        "int x; return 1; return x;",
        "int x; fail; return x;",
        "while (true) ; int x; return x;",
        "int x; while (true) ; return x;",
        "if (false) { int x; return x; } else return 1;",
        "while (false) { int x; x = x + 1; } return 1;",
    ] {
        assert_eq!(checked(&main_with(body)), Ok(()), "{body}");
    }
    let main = "int main() { return 1; } ";
    // Parameters, arguments, and functions that nothing calls.
    assert_eq!(checked(&(main.to_string() + "int f(int a, int b) { return a + b; }")), Ok(()));
    refused(17, &(main.to_string() + "int f(int a) { int x; return f(1 + (@x)); }"));
    refused(17, "int f() { int x; return @x; } int main() { int x; return x; }");
    refused(17, "int f(int a) { int x; x = a; return x; } int main() { int x; return f(@x); }");
    // Over the whole text after 6 to 9, and before 10.
    refused_main(6, "int x; return x + @y;");
    refused(7, "int f(int a) { int x; return x; } int main() { return @f(); }");
    refused(8, "int f() { int x; return x; } @");
    refused(9, "int main() { int x; x; @}");
    refused(9, "int f() { int x; return x; } int main() { @}");
    let many: String = (0..17).map(|n| format!("int v{n}; ")).collect();
    refused_main(17, &(many.clone() + "return @v0;"));
    refused_main(10, &(many.replace("v16", "@v16") + "v0 = 1; return v0;"));
    refused(
        17,
        "int f(int a, int b, int c, int d, int e) { return e; } int main() { int x; return @x; }",
    );
}

/// Slip 1: a variable holds nothing again each time its declaration is reached.
#[test]
fn assigned_on_every_way() {
    let text = main_with("int a free; int x; if (a < 1) x = 5; else x = a; return x;");
    assert_eq!(rows(&listed(&text, job(0, 2, 100))), [(5, vec![0]), (1, vec![1]), (2, vec![2])]);
    let text = main_with(
        "int i; int s; i = 0; s = 0; \
         while (i < 3) { int x; if (i < 1) x = 4; else x = i; s = s * 10 + x; i = i + 1; } return s;",
    );
    assert_eq!(rows(&listed(&text, job(0, 0, 100))), [(412, vec![])]);
}

#[test]
fn counts() {
    let functions = |n: usize, mark: usize| -> String {
        let one =
            |k: usize| format!("int {}f{k}() {{ return 1; }} ", if k == mark { "@" } else { "" });
        (0..n).map(one).collect()
    };
    assert_eq!(checked(&(functions(15, 99) + &main_with("return 1;"))), Ok(()));
    refused(10, &(main_with("return 1;") + &functions(18, 15)));
    refused(10, &(functions(16, 99) + "int @main() { return 1; }"));
    let main = main_with("return 1;");
    assert_eq!(
        checked(&(main.clone() + "int f(int a, int b, int c, int d) { return 1; }")),
        Ok(())
    );
    refused(10, &(main.clone() + "int f(int a, int b, int c, int d, int @e, int g) { return 1; }"));
    let declarations = |from: usize, to: usize, mark: usize| -> String {
        let one = |k: usize| format!("{{ int {}v{k}; }} ", if k == mark { "@" } else { "" });
        (from..to).map(one).collect()
    };
    assert_eq!(checked(&main_with(&(declarations(0, 16, 99) + "return 1;"))), Ok(()));
    refused_main(10, &(declarations(0, 18, 16) + "return 1;"));
    refused(10, &(main + "int f(int a, int b) { " + &declarations(2, 17, 16) + "return 1; }"));
}

/// Slip 5: what an own pair may look like, and the refusals 18 and 19.
#[test]
fn own_pairs() {
    for body in [
        "int x free 5 .. 400; return x;",
        "int x free 5..400; return x;",
        "int x free -5..-1; return x;",
        "int x free - 5 .. - 0; return x;",
        "int x free 1_0 .. 2_0; return x;",
        "int x free 0 .. 4095; return x;",
        "int x free -4095 .. 0; return x;",
        "int x free 2147483647 .. 2147483647; return x;",
    ] {
        assert_eq!(checked(&main_with(body)), Ok(()), "{body}");
    }
    for body in ["int x free 5..@.6; fail;", "int x free 5@.6; fail;", "int x free 5 @. . 6; fail;"]
    {
        refused_main(2, body);
    }
    refused_main(3, "int x free -@2147483648 .. 0; fail;");
    // 3 before 18, though it stands behind it.
    refused_main(3, "int x free 6 .. 5; int y free @2147483648 .. 0; fail;");
    for body in [
        "int x free 5@; fail;",
        "int x free @a .. 3; fail;",
        "int x free - @- 5 .. 3; fail;",
        "int x free @.. 3; fail;",
        "int x free 5 .. @; fail;",
        "int x free 5 .. 6 @.. 7; fail;",
        "int x free 5 @+ 1 .. 6; fail;",
        "int x free @(5) .. 6; fail;",
        "int x @5 .. 6; fail;",
        "return 5 @.. 6;",
    ] {
        refused_main(4, body);
    }
    refused_main(18, "int x free @6 .. 5; fail;");
    refused_main(18, "int x free @-5 .. -6; fail;");
    refused_main(18, "int x free 0 .. 4096; int y free @6 .. 5; fail;");
    refused_main(18, "int x free @2147483647 .. -2147483647; fail;");
    refused(18, "int f() { int x free @3 .. 2; fail; } int main() { fail; }");
    refused_main(19, "int x free @0 .. 4096; int y free 0 .. 9999; fail;");
    refused_main(19, "int x free @-1 .. 4095; fail;");
    refused_main(19, "int x free @-2147483647 .. 2147483647; fail;");
    // 9, 17 and 10 before them.
    refused(9, "int main() { int x free 6 .. 5; @}");
    refused_main(17, "int x free 6 .. 5; int y; return @y;");
    let many: String = (0..16).map(|n| format!("int v{n}; ")).collect();
    refused_main(
        10,
        &(String::from("int x free 6 .. 5; ") + &many.replace("v15", "@v15") + "fail;"),
    );
}

/// Slip 5: a plain free takes the job's pair, another its own, also in a loop.
#[test]
fn lists_over_own_pairs() {
    let text = main_with("int x free 5 .. 6; int y free; return x + y;");
    let expected = [(5, vec![5, 0]), (6, vec![5, 1]), (6, vec![6, 0]), (7, vec![6, 1])];
    assert_eq!(rows(&listed(&text, job(0, 1, 100))), expected);
    let text = main_with("int y free 0 .. 3; if (y < 2) return y; else fail;");
    assert_eq!(rows(&listed(&text, job(7, 7, 100))), [(0, vec![0]), (1, vec![1])]);
    let text = main_with(
        "int i; int s; i = 0; s = 0; \
         while (i < 2) { int x free -1 .. 0; s = s * 10 + x; i = i + 1; } return s;",
    );
    let expected = [(-11, vec![-1, -1]), (-10, vec![-1, 0]), (-1, vec![0, -1]), (0, vec![0, 0])];
    assert_eq!(rows(&listed(&text, job(3, 4, 100))), expected);
    // 12 and 13 judge the job's pair, though no plain free stands there.
    let text = main_with("int x free 5 .. 6; return x;");
    assert_eq!(list(text.as_bytes(), &job(1, 0, 100)).err(), Some((12, 0)));
    assert_eq!(list(text.as_bytes(), &job(0, 4_096, 100)).err(), Some((13, 0)));
}

#[test]
fn unreached_functions() {
    let text = "int a() { return b(); } int b() { return a(); } int main() { return 1; c(); return 2; } \
                int c() { return c() + d(1); } int d(int x) { return x; } int e() { return main(); }";
    let found = remarks(text.as_bytes(), 16).expect("accepted");
    let place = |part: &str| (text.find(part).expect("part") + 4) as u16;
    assert_eq!(found, [place("int a("), place("int b("), place("int e(")]);
    assert_eq!(remarks(A.as_bytes(), 16).expect("accepted").len(), 0);
}

#[test]
fn long_texts() {
    with_room(|| {
        assert_eq!(check(&vec![b'('; 2048]), Err((4, 0)));
        let text = main_with(&format!("return {}", "(".repeat(2000)));
        assert_eq!(checked(&text[..2000]), Err((4, 2000)));
        let text = main_with(&format!("return {}1{};", "(".repeat(900), ")".repeat(900)));
        assert_eq!(checked(&text), Err((5, 13 + 7 + 24)));
    });
}
