//! The program `rule_check` by the reference: a text on standard input; what
//! check and remarks answer on standard output.

use std::io::{Read, Write};

fn main() -> std::io::Result<()> {
    let mut text = Vec::new();
    std::io::stdin().take(2049).read_to_end(&mut text)?;
    let printed = reference::with_room(|| reference::lister::checked(&text));
    std::io::stdout().write_all(printed.as_bytes())
}
