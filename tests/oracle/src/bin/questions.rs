//! Writes the list of questions, a line each.

use std::io::{self, BufWriter, Write};

fn main() -> io::Result<()> {
    let mut output = BufWriter::new(io::stdout().lock());
    for question in oracle_core::questions() {
        writeln!(output, "{question}")?;
    }
    output.flush()
}
