//! Writes the list of questions on the collector, a line each; with the word
//! `million`, those of a million random histories instead; with the word
//! `replay`, those on Set Channel Access, on records with tags and on suites by
//! suite that crates/replay has.

use std::io::{self, BufWriter, Write};

fn main() -> io::Result<()> {
    let words: Vec<String> = std::env::args().skip(1).collect();
    let list = match words.iter().map(String::as_str).collect::<Vec<_>>()[..] {
        [] => collector_model::questions(),
        ["million"] => collector_model::million(),
        ["replay"] => collector_model::replay::questions(),
        _ => return Err(io::Error::other("usage: questions [million|replay]")),
    };
    let mut output = BufWriter::new(io::stdout().lock());
    for question in list {
        writeln!(output, "{question}")?;
    }
    output.flush()
}
