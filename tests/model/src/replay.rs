//! The questions that crates/replay has for the models of Set Channel Access, of
//! records with tags and of suites by suite.

use crate::{by_suite, records, settings};
use replay_form::{refused, List, Row, Said, BAD_LINE};

/// By this line the questions are known among those of crates/replay.
pub const HEADING: &str = "The models";

fn rows() -> Vec<Row> {
    [&settings::ROWS[..], &records::ROWS, &by_suite::ROWS].concat()
}

pub fn questions() -> Vec<String> {
    let mut list = List::new(rows());
    list.heading(HEADING);
    settings::questions(&mut list);
    records::questions(&mut list);
    by_suite::questions(&mut list);
    list.lines
}

/// The answer to a line, which comes without its newline.
pub fn answer(line: &[u8]) -> String {
    let rows = rows();
    replay_form::answer(line, |question| {
        let row = rows.iter().find(|row| row.number == question.function);
        let said = row.and_then(|row| ask(row.name, &question.arguments));
        said.unwrap_or_else(|| refused(BAD_LINE))
    })
}

fn ask(name: &str, data: &[u8]) -> Option<Said> {
    settings::answer(name, data)
        .or_else(|| records::answer(name, data))
        .or_else(|| by_suite::answer(name, data))
}
