//! Answers questions by the code of the crate ipmi-rs-core.

// The crate's files say `crate::connection`, so they sit at the root: this
// gives the modules `app` and `connection`.
include!(concat!(env!("OUT_DIR"), "/core/lib.rs"));

mod bytes;
mod channel;
pub mod differences;
mod leaves;
mod room;
mod session;
mod suites;
mod traffic;

use replay_form::{refused, Asked, List, Question, Row, Said, BAD_LINE};
use std::collections::BTreeMap;
use std::panic::catch_unwind;
use std::sync::LazyLock;

/// The functions that questions name. Each group has its own.
fn rows() -> Vec<Row> {
    [
        &leaves::ROWS[..],
        &channel::ROWS,
        &session::ROWS,
        &suites::ROWS,
    ]
    .concat()
}

/// The whole list of questions, in order. Each group adds its own.
pub fn questions() -> Vec<String> {
    let mut list = List::new(rows());
    leaves::questions(&mut list);
    channel::questions(&mut list);
    session::questions(&mut list);
    suites::questions(&mut list);
    room::questions(&mut list);
    traffic::questions(&mut list);
    list.lines
}

/// The answer to a line, which comes without its newline: the crate's, to the
/// arguments that stand in the place of a listed difference.
pub fn answer(line: &[u8]) -> String {
    answered(line, said)
}

/// What the crate itself answers to a line.
pub fn crates_own(line: &[u8]) -> String {
    answered(line, own)
}

/// How many of a line's questions have an answer that is not the crate's own, by
/// the names of their functions; none where these are not exactly the listed
/// ones.
pub fn listed(line: &[u8]) -> Option<BTreeMap<&'static str, u64>> {
    let mut counts = BTreeMap::new();
    for question in Asked::read(line).iter().flat_map(Asked::questions) {
        let name = name(&question);
        let listed = differences::instead(name, &question.arguments).is_some();
        if listed != (said(&question) != own(&question)) {
            return None;
        }
        if listed {
            *counts.entry(name).or_default() += 1;
        }
    }
    Some(counts)
}

/// The crate's code may panic, which is an answer too.
fn answered(line: &[u8], ask: fn(&Question) -> Said) -> String {
    catch_unwind(|| replay_form::answer(line, ask)).unwrap_or_else(|_| "panic".to_string())
}

fn said(question: &Question) -> Said {
    let instead = differences::instead(name(question), &question.arguments);
    own(&Question {
        arguments: instead.unwrap_or_else(|| question.arguments.clone()),
        ..*question
    })
}

fn own(question: &Question) -> Said {
    let said = ask(name(question), &question.arguments, question.room.into());
    said.unwrap_or_else(|| refused(BAD_LINE))
}

/// The function's name, an empty one where no function has this number.
fn name(question: &Question) -> &'static str {
    static NAMES: LazyLock<[&str; 256]> = LazyLock::new(|| {
        let mut names = [""; 256];
        for row in rows() {
            names[usize::from(row.number)] = row.name;
        }
        names
    });
    NAMES[usize::from(question.function)]
}

/// Asks the groups in turn; none of them knows another number of arguments than
/// the function takes.
fn ask(name: &str, data: &[u8], room: usize) -> Option<Said> {
    leaves::answer(name, data)
        .or_else(|| channel::answer(name, data))
        .or_else(|| session::answer(name, data))
        .or_else(|| suites::answer(name, data, room))
}
