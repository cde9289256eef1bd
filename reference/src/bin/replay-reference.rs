//! The replay program over this library: standard input to standard output; with `--batch`, one framed input after the other.

use reference::boundary::{read_frame, write_frame};
use reference::replay::{replay, MAX_INPUT};
use std::io::{self, Read, Write};

fn main() -> io::Result<()> {
    let mut stdin = io::stdin().lock();
    let mut stdout = io::stdout().lock();
    if std::env::args().nth(1).as_deref() == Some("--batch") {
        while let Some(input) = read_frame(&mut stdin)? {
            write_frame(&mut stdout, &replay(&input))?;
        }
        return Ok(());
    }
    let mut input = Vec::new();
    stdin.take(MAX_INPUT as u64 + 1).read_to_end(&mut input)?;
    stdout.write_all(&replay(&input))
}
