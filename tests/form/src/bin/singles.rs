//! Reads questions, a line each, and writes them without sweeps: for each the
//! questions that it stands for.

use replay_form::Asked;
use std::io::{self, BufRead, BufWriter, Write};

fn main() -> io::Result<()> {
    let mut output = BufWriter::new(io::stdout().lock());
    for line in io::stdin().lock().split(b'\n') {
        let line = line?;
        let Some(asked) = Asked::read(&line) else {
            output.write_all(&line)?;
            writeln!(output)?;
            continue;
        };
        for question in asked.questions() {
            writeln!(output, "{}", Asked::One(question).line())?;
        }
    }
    output.flush()
}
