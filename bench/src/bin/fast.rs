//! Reads a run file from standard input and prints its text: one byte more than is allowed is read, to see that there are
//! too many.
use bench::fast::run;
use reference::settings::LONGEST_FILE;
use std::io::{self, Read, Write};

fn main() -> io::Result<()> {
    let mut input = Vec::with_capacity(LONGEST_FILE + 1);
    io::stdin()
        .lock()
        .take(LONGEST_FILE as u64 + 1)
        .read_to_end(&mut input)?;
    let mut text = Vec::new();
    run(&input, &mut text);
    io::stdout().lock().write_all(&text)
}
