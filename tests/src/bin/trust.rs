//! Counts the definitions that docs/TRUST.md says have to be believed, and
//! prints the lines for each of its groups and each file. With `--write` the
//! figures are written into the document.

use reference::documents::{believed, document, file, with_figures, TRUST};

fn main() {
    let text = document(TRUST);
    let counted = believed(&text);
    println!("{}", counted.rows().join("\n"));
    for (group, lines) in &counted.groups {
        println!("{group}: {lines}");
    }
    println!("all: {}", counted.all());
    if std::env::args().nth(1).as_deref() == Some("--write") {
        std::fs::write(file(TRUST), with_figures(&text)).expect("docs/TRUST.md can be written");
    }
}
