//! Reads questions, a line each, and writes one line of answer for each: on the
//! collector, or, with the word `replay`, those of crates/replay.

use std::io::{self, BufRead, BufWriter, Write};

fn main() -> io::Result<()> {
    let words: Vec<String> = std::env::args().skip(1).collect();
    let answer = match words.iter().map(String::as_str).collect::<Vec<_>>()[..] {
        [] => collector_model::answer,
        ["replay"] => collector_model::replay::answer,
        _ => return Err(io::Error::other("usage: model [replay]")),
    };
    let mut output = BufWriter::new(io::stdout().lock());
    // Bytes, not text: a line that is no text has an answer too.
    for line in io::stdin().lock().split(b'\n') {
        writeln!(output, "{}", answer(&line?))?;
    }
    output.flush()
}
