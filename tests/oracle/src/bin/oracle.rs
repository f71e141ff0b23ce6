//! Reads questions, a line each, and writes one line of answer for each.

use std::io::{self, BufRead, BufWriter, Write};

fn main() -> io::Result<()> {
    // A panic is answered in its line; its message would only be noise.
    std::panic::set_hook(Box::new(|_| {}));

    let mut output = BufWriter::new(io::stdout().lock());
    // Bytes, not text: a line that is no text has an answer too.
    for line in io::stdin().lock().split(b'\n') {
        writeln!(output, "{}", oracle_core::answer(&line?))?;
    }
    output.flush()
}
