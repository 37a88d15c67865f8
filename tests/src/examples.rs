//! Fixed texts and jobs: the paper's examples with what it says of them, its
//! limits, texts at the places where the paper had to be read closely, and a
//! grid of jobs in which one thing that is lent or asked for takes every small
//! size and the sizes around its limits.

use crate::search::{list, Job, LEAST_SCRATCH};

pub struct Example {
    pub name: &'static str,
    pub text: Vec<u8>,
    pub job: Job,
}

const A: &str = "int main() { int y free; if (y < 2) return y; else fail; }";

const LOGARITHM: &str = "int log(int x) {
    int y free;
    if (pow(2,y) == x) return y;
    else fail; }
int pow(int b, int y) {
    int i; int r; i = 0; r = 1;
    while (i < y) {
        r = r * b; i = i + 1; }
    return r; }
int main() { return log(1); }";

fn job(low: i32, high: i32, steps: u32) -> Job {
    Job {
        low,
        high,
        steps,
        skip: 0,
        budget: 1_000_000,
        rows_len: 10_000,
        scratch_len: LEAST_SCRATCH,
    }
}

fn main_with(body: &str) -> String {
    format!("int main() {{ {body} }}")
}

fn padded(text: &str, length: usize) -> Vec<u8> {
    let mut text = text.as_bytes().to_vec();
    text.resize(length, b' ');
    text
}

/// "Rules tried by hand", the starred ones and the others, each with what the
/// paper says of it, as the program would print it. Where the paper gives no
/// moves, the last line ends before them.
pub fn by_hand() -> Vec<(Example, &'static str)> {
    let mut known = Vec::new();
    let mut add = |name, text: Vec<u8>, job, printed| {
        known.push((Example { name, text, job }, printed));
    };
    let both = "0 : 0\n1 : 1\nwhole 2 rows 9 moves\n";
    let a = || A.as_bytes().to_vec();
    add("A", a(), job(0, 3, 100), both);
    add("A, budget 9", a(), Job { budget: 9, ..job(0, 3, 100) }, both);
    let spent = "0 : 0\n1 : 1\nspent 2 rows 8 moves\n";
    add("A, budget 8", a(), Job { budget: 8, ..job(0, 3, 100) }, spent);
    add("A, 5 steps", a(), job(0, 3, 5), both);
    add("A, 4 steps", a(), job(0, 3, 4), "cut 0 rows 6 moves\n");
    let full = "0 : 0\nfull 1 rows 7 moves\n";
    add("A, ten words", a(), Job { rows_len: 10, ..job(0, 3, 100) }, full);
    add(
        "a > 1",
        main_with("int a free; if (a > 1) return 1; else return 0;").into(),
        job(0, 3, 100),
        "1 : 2\n1 : 3\n0 : 0\n0 : 1\nwhole 4 rows",
    );
    add(
        "a sum of two",
        main_with("int a free; int b free; return a + b;").into(),
        job(0, 1, 100),
        "0 : 0 0\n1 : 0 1\n1 : 1 0\n2 : 1 1\nwhole 4 rows",
    );
    add(
        "a < a",
        main_with("int a free; if (a < a) return 9; else return a;").into(),
        job(1, 2, 100),
        "1 : 1\n2 : 2\nwhole 2 rows 11 moves\n",
    );
    add(
        "a call that fails behind &&",
        "int f() { fail; } int main() { int a free; if (a < 1 && f() == 0) return 1; else return 0; }"
            .into(),
        job(0, 1, 100),
        "0 : 1\nwhole 1 rows",
    );
    let endless = main_with("while (true) ; fail;");
    add("an endless loop", endless.into(), job(0, 0, 50), "cut 0 rows 51 moves\n");
    let sum = main_with("return 2147483647 + 1;");
    add("a sum that wraps", sum.into(), job(0, 0, 100), "-2147483648 :\nwhole 1 rows");
    let product = main_with("return 65536 * 65536;");
    add("a product that wraps", product.into(), job(0, 0, 100), "0 :\nwhole 1 rows");
    add("empty", Vec::new(), job(0, 0, 100), "refused 8 at 0\n");
    let logarithm = "-2 : -2\n-1 : -1\n0 : 0\nwhole 3 rows";
    add("log(1)", LOGARITHM.into(), job(-2, 2, 1_000), logarithm);
    add("2,048 bytes", padded(A, 2_048), job(0, 3, 100), both);
    add("2,049 bytes", padded(A, 2_049), job(0, 3, 100), "refused 1 at 2048\n");
    add("4,096 values", a(), job(0, 4_095, 100), both);
    add("4,097 values", a(), job(0, 4_096, 100), "refused 13 at 0\n");
    let eight = "0 : 0 0 0 0 0 0 0 0\nwhole 1 rows";
    add("8 free", main_with(&(frees(8) + "return v7;")).into(), job(0, 0, 50), eight);
    add("9 free", main_with(&(frees(9) + "return v7;")).into(), job(0, 0, 50), "cut 0 rows");
    known
}

/// So many declarations, with names as short as can be: `a` is the first.
pub fn declarations(count: usize) -> String {
    short_names().take(count).map(|name| format!("int {name};")).collect()
}

/// The names of one letter, then those of two.
pub fn short_names() -> impl Iterator<Item = String> {
    let letters = || ('a'..='z').chain('A'..='Z').map(String::from);
    let pairs =
        letters().flat_map(move |first| letters().map(move |second| first.clone() + &second));
    letters().chain(pairs.filter(|name| name != "if"))
}

fn frees(count: usize) -> String {
    (0..count).map(|n| format!("int v{n} free; ")).collect()
}

pub fn examples() -> Vec<Example> {
    let mut examples = Vec::new();
    let mut add = |name, text: Vec<u8>, job| examples.push(Example { name, text, job });
    add("log(1)", LOGARITHM.into(), job(-2, 2, 1_000));
    for steps in [1, 20, 40, 60, 80, 999] {
        add("log(1), fewer steps", LOGARITHM.into(), job(-2, 2, steps));
    }
    add("log(8)", LOGARITHM.replace("log(1)", "log(8)").into(), job(-2, 20, 1_000));
    add("2,048 bytes", padded(A, 2_048), job(0, 3, 100));
    add("2,049 bytes", padded(A, 2_049), job(0, 3, 100));
    add("100,000 bytes", padded(A, 100_000), job(0, 3, 100));
    add("4,096 values", A.into(), job(0, 4_095, 100));
    add("4,096 negative values", A.into(), job(i32::MIN, i32::MIN + 4_095, 100));
    add("4,097 values", A.into(), job(0, 4_096, 100));
    add("all values", A.into(), job(i32::MIN, i32::MAX, 100));
    add("8 free", main_with(&(frees(8) + "return v7;")).into(), job(0, 1, 50));
    add("9 free", main_with(&(frees(9) + "return v8;")).into(), job(0, 1, 50));
    add("9 free, one value", main_with(&(frees(9) + "return v8;")).into(), job(0, 0, 50));
    add(
        "9th free after a test",
        main_with(&(frees(8) + "if (v0 + v1 == 2) { int v8 free; return v8; } else return v7;"))
            .into(),
        job(0, 1, 50),
    );
    for body in [
        "return 2147483647 + 1;",
        "return 65536 * 65536;",
        "return -2147483647 - 2;",
        "while (true) ; fail;",
        "return main();",
        "int x; x = 0; { x = 1; } return x;",
        "if (true) { return 1; } else fail;",
        "int i; i = 0; while (i < 1) i = i + 1; return i;",
        "int a free; if (a > 1) return 1; else return 0;",
        "int a free; int b free; return a + b;",
        "int a free; if (a < a) return 9; else return a;",
        "int a free; if (a - a == 0) return 1; else fail;",
        "int a free; if (0 * a == 0) return 1; else fail;",
        "int a free; if (a + 2147483647 > 0) return 1; else return 0;",
        "int a free; if (a * a == 2) while (true) ; else return a; fail;",
        "int i; i = 0; while (i < 2) { int a free; i = i + 1; } return i;",
        "int a free; if (a < 0 * a + 2) return 1; else return 0;",
        "int a free; int b free; if (b == 1) if (a < b) return 1; else return 2; else return 3;",
        "int a free; if (a != 1) if (a == 2) return a; else return -1; else return 7;",
        "int a free; if (1 != a) if (2 == a) return a; else return 0 - a; else return 7;",
        "int a free; if (a + 0 < 2) if (a < 1) return 1; else return 2; else return 3;",
        "int i; int s; i = 0; s = 0; \
         while (i < 3) { int t; if (i < 1) t = 4; else t = i; s = s * 10 + t; t = 5; i = i + 1; } return s;",
        "int s; s = 0; if (s == 0) { s = 4; { s = s * s; } } else s = 1; return s;",
        "int a free; int b; b = a; if (b < 1) return 1; else if (a < 1) return 2; else return 3;",
    ] {
        for (low, high, steps) in [(0, 0, 1_000), (0, 3, 50), (1, 2, 8)] {
            add("a small main", main_with(body).into(), job(low, high, steps));
        }
    }
    for text in [
        // The order of evaluation shows in the order of the free numbers.
        "int f() { int a free; if (a < 1) return 5; else return a; } int g(int x, int y) { return x - y; } \
         int main() { int c free; return g(f(), f() * c) + f() * f() - c; }",
        "int f(int n) { int a free; if (n == 0) return a; else return f(n - 1) * 3 - a; } \
         int main() { if (f(1) < f(0)) return f(0); else return 9; }",
        // Each call has variables of its own.
        "int f(int n) { int t; t = n; if (n > 0) f(n - 1); else ; return t * 2; } \
         int main() { int a free; return f(a) + f(3); }",
        // A call that fails on one side only.
        "int f() { fail; } int main() { int a free; if (a < 1 && f() == 0) return 1; else return 0; }",
        "int f() { fail; } int main() { int a free; if (a > 0 || f() == 0) return 1; else return 0; }",
    ] {
        for (low, high, steps) in [(0, 1, 1_000), (-1, 2, 60), (0, 2, 25)] {
            add("several functions", text.into(), job(low, high, steps));
        }
    }
    // Read where it holds something on every way, and where it may hold nothing.
    for body in [
        "int a free; int x; if (a < 1) x = 5; else x = a; return x;",
        "int a free; int x; if (a < 1) x = 5; else fail; return x;",
        "int a free; int x; if (a < 1) { return 7; } else { { x = a; } } return x;",
        "int a free; int x; if (a < 1) x = 5; else while (true) ; return x;",
        "int a free; int x; while (true) { x = a; return x; } fail;",
        "int a free; int x; if (a < 1 || true) x = a; else ; return x;",
        "int a free; int x; if (true || x < 1) return a; else return 2;",
        "int a free; int x; if (a < 1 && false) return x; else return a;",
        "int i; i = 0; while (i < 2) { int x; if (i < 1) x = 5; else x = 6; i = i + x; } return i;",
        "return 1; int x; return x;",
        "int x; return x;",
        "int a free; int x; if (a < 1) x = 5; else ; return x;",
        "int a free; int x; while (a < 1) { x = a; a = a + 1; } return x;",
        "int i; int y; i = 0; while (i < 2) { int x; if (i < 1) x = 5; else ; y = x; i = i + 1; } return i;",
        "int x; x = x + 1; return x;",
        "int x; if (1 < 2 || x < 1) return 1; else return 2;",
    ] {
        for (low, high, steps) in [(0, 2, 1_000), (0, 3, 12)] {
            add("a variable that holds nothing", main_with(body).into(), job(low, high, steps));
        }
    }
    // Pairs of their own: beside the job's, at the ends of 32 bits, in a loop and in a call, and some that are refused.
    for body in [
        "int x free 5 .. 6; int y free; return x + y;",
        "int x free 3 .. 3; if (x == 3) return x; else fail;",
        "int x free -1..1; if (x < 0) return 1; else if (x == 0) return 2; else return 3;",
        "int y free; int x free 2 .. 4; if (x > y) if (y != 2) return x * y; else fail; else return y - x;",
        "int i; i = 0; while (i < 3) { int a free 1 .. 2; i = i + a; } return i;",
        "int a free 2147483645 .. 2147483647; if (a + 1 > a) return a; else return 0;",
        "int a free -2147483647 .. -2147483645; if (a - 2 < a) return a; else return 1;",
        "int a free 0 .. 1; int b free; int c free -2 .. -1; if (a < b) return a * b - c; else return c;",
        "int a free 0 .. 4095; if (a == 17) return a; else fail;",
        "int a free 0 .. 4096; return a;",
        "int a free 2 .. 1; return a;",
        "int a free 0 .. 5000; int b free -1 .. -2; return a;",
        "int a free 0 .. -5000; int b free -1 .. 4095; return a;",
    ] {
        for (low, high, steps) in [(0, 1, 1_000), (-1, 2, 9), (7, 7, 100), (1, 0, 100), (0, 4_096, 100)] {
            add("a pair of its own", main_with(body).into(), job(low, high, steps));
        }
    }
    let chain = "x = x + x; ".repeat(60);
    let chain = format!("int x free; {chain} if (x < 1) return 1; else return x;");
    add("a shared expression", main_with(&chain).into(), job(0, 3, 1_000));
    // A with every small budget, skip and room.
    for budget in 0..=10 {
        for skip in 0..=3 {
            for rows_len in 0..=35 {
                let job = Job { budget, skip, rows_len, ..job(0, 3, 100) };
                add("A", A.into(), job);
            }
        }
    }
    for steps in 0..=6 {
        for budget in 0..=10 {
            add("A, few steps", A.into(), Job { budget, ..job(0, 3, steps) });
        }
    }
    // Refusals of a job, in their order.
    for scratch_len in [0, 1, LEAST_SCRATCH - 1, LEAST_SCRATCH, LEAST_SCRATCH + 1] {
        for (low, high) in [(1, 0), (0, 4_096), (i32::MAX, i32::MIN), (0, 4_095)] {
            for steps in [0, 1_001, u32::MAX, 1_000] {
                for text in ["!", "", A] {
                    add("refusals", text.into(), Job { scratch_len, ..job(low, high, steps) });
                }
            }
        }
    }
    examples
}

/// Jobs that end in each way, with few moves.
const SMALL: [(&str, i32, i32, u32); 6] = [
    (A, 0, 3, 100),
    // Four rows, true first, and one choice.
    ("int main() { int a free; if (a > 1) return 1; else return 0; }", 0, 3, 100),
    // Rows and cut runs in one list.
    ("int main() { int a free; int i; i = 0; while (i < a) i = i + 1; return i; }", 0, 4, 16),
    // No free number, and no row at all.
    ("int main() { int a; a = 4; return a - 5; }", 0, 0, 100),
    ("int main() { int a free; if (a * a == 2) while (true) ; else fail; fail; }", -2, 3, 40),
    // Nested choices, two free numbers, and a row that is the list's last move.
    (
        "int f(int a) { int b free; if (a * b == 2) return a; else return b - a; } \
         int main() { int a free; if (a != 1) return f(a + a); else fail; }",
        -1,
        2,
        100,
    ),
];

/// The grid. Each small job is tried with every budget that it can spend, rows
/// slices of 0 to 35 words, every skip up to past its rows, scratch slices
/// around 16,384 words, step limits around its own, and windows at the ends of
/// 32 bits.
pub fn grid() -> Vec<Example> {
    let mut grid = Vec::new();
    for (text, low, high, steps) in SMALL {
        let own = job(low, high, steps);
        let listing = list(text.as_bytes(), &own).expect("the job is not refused");
        let rows = listing.rows.len() as u32;
        let mut add = |name, job| grid.push(Example { name, text: text.into(), job });
        for rows_len in 0..=35 {
            for skip in 0..=rows + 1 {
                add("rows slices", Job { rows_len, skip, ..own });
            }
        }
        for budget in (0..=listing.moves + 2).chain([1 << 31, u32::MAX]) {
            for (skip, rows_len) in [(0, 10_000), (0, 10), (1, 20), (rows, 0), (u32::MAX, 9)] {
                add("budgets", Job { budget, skip, rows_len, ..own });
            }
        }
        for skip in (0..=rows + 2).chain([1_000, (1 << 31) - 1, 1 << 31, u32::MAX - 1, u32::MAX]) {
            add("skips", Job { skip, ..own });
        }
        let lengths = (LEAST_SCRATCH - 4..=LEAST_SCRATCH + 20).chain([0, 1, 8_192, 65_537]);
        for scratch_len in lengths {
            add("scratch slices", Job { scratch_len, ..own });
        }
        for steps in (0..=60).chain(998..=1_002).chain([1 << 16, 1 << 31, u32::MAX]) {
            add("step limits", Job { steps, ..own });
        }
        for (low, high) in windows() {
            add("windows", Job { budget: 100_000, rows_len: 50_000, ..job(low, high, steps) });
        }
    }
    // Every step limit there is, and one past each end.
    for text in [A, SMALL[2].0, "int main() { while (true) ; fail; }"] {
        for steps in 0..=1_001 {
            grid.push(Example { name: "step limits", text: text.into(), job: job(0, 2, steps) });
        }
    }
    // What a run makes of the ends of 32 bits.
    for body in [
        "int a free; if (a + 1 > a) return a + 1; else return a - 1;",
        "int a free; if (a - 1 < a) return a * a; else return 0 - a;",
        "int a free; if (a * 2 >= a + a) return a * 3; else fail;",
        "int a free; if (a <= -2147483647 - 1) return 1; else if (a >= 2147483647) return 2; \
         else if (a != 0) return 3; else return 4;",
        "int a free; if (-2147483647 - 1 < a && 2147483647 > a) return a; else fail;",
        "int a free; if (a == 2147483647 || -2147483647 - 1 == a) return a; else return 0;",
    ] {
        for (low, high) in windows() {
            let job = Job { rows_len: 50_000, ..job(low, high, 100) };
            grid.push(Example { name: "windows", text: main_with(body).into(), job });
        }
    }
    grid
}

/// Windows at the ends of 32 bits and around 4,096 values.
fn windows() -> Vec<(i32, i32)> {
    let mut windows = vec![
        (0, 0),
        (-1, -1),
        (1, 0),
        (0, -1),
        (-2_048, 2_047),
        (-2_048, 2_048),
        (-4_096, -1),
        (-4_096, 0),
        (i32::MIN, i32::MAX),
        (i32::MAX, i32::MIN),
        (i32::MIN, 0),
        (0, i32::MAX),
        (-1, i32::MAX),
        (i32::MIN, -1),
    ];
    for values in [1, 2, 3, 4_095, 4_096, 4_097, 4_098] {
        windows.push((i32::MIN, i32::MIN + (values - 1)));
        windows.push((i32::MAX - (values - 1), i32::MAX));
        windows.push((7, 7 + (values - 1)));
    }
    windows
}

/// One job for each number and ending, for answer slices of every small length.
pub fn endings() -> Vec<Example> {
    let whole = job(0, 3, 100);
    let endless = "int main() { while (true) ; fail; }";
    [
        ("refusal 11", A, Job { scratch_len: LEAST_SCRATCH - 1, ..whole }),
        ("refusal 12", A, job(1, 0, 100)),
        ("refusal 13", A, job(0, 4_096, 100)),
        ("refusal 14", A, job(0, 3, 0)),
        ("refusal 2", "int main() { return !; }", whole),
        ("refusal 9", "int main() { }", whole),
        ("refusal 17", "int main() { int x; return x; }", whole),
        ("refusal 18", "int main() { int x free 6 .. 5; return x; }", whole),
        ("refusal 19", "int main() { int x free 0 .. 4096; return x; }", whole),
        ("whole", A, whole),
        ("cut", endless, whole),
        ("full", A, Job { rows_len: 19, ..whole }),
        ("spent", A, Job { budget: 8, ..whole }),
    ]
    .map(|(name, text, job)| Example { name, text: text.into(), job })
    .into()
}
