//! The program `sheet` by the reference: a job line and a text on standard
//! input, the pages of the list or the refusal on standard output.

use std::io::{Read, Write};

fn main() -> std::io::Result<()> {
    let mut input = Vec::new();
    std::io::stdin().read_to_end(&mut input)?;
    let printed = reference::with_room(|| reference::lister::post(&input));
    std::io::stdout().write_all(&printed)
}
