//! The house style of a text on standard input, or `refused N at P`.

use reference::{house, with_room};
use std::io::{Read, Write};

fn main() -> std::io::Result<()> {
    let mut text = Vec::new();
    std::io::stdin().read_to_end(&mut text)?;
    std::io::stdout().write_all(with_room(|| house::shown(&text)).as_bytes())
}
