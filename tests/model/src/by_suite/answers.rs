//! What is answered to the questions on suites by suite.

use super::{heard, read, request, suites, written as answer_written};
use super::{ChannelCollector, INCOMPLETE, NO_FORM};
use crate::collector::{Answer, Status, Verdict};
use replay_form::{number, refused, refused_with, written, Row, Said};

#[rustfmt::skip]
pub const ROWS: [Row; 5] = [
    Row { number: 0x89, name: "ghj_by_suite_request", room: |_| 5 },
    Row { number: 0x8A, name: "by_suite_read", room: |_| 2 },
    Row { number: 0x8B, name: "ghj_by_suite", room: |_| 19 },
    Row { number: 0x8C, name: "by_suite_written", room: |_| 19 },
    Row { number: 0x8D, name: "joined_suites", room: |n| n / 5 + 2 },
];

pub fn answer(name: &str, data: &[u8]) -> Option<Said> {
    let said = match (name, data) {
        ("ghj_by_suite_request", &[channel, index]) => {
            request(channel, index).map_or_else(refused, written)
        }
        ("by_suite_read", request) => match read(request) {
            Ok((channel, index)) => number(u16::from_le_bytes([channel, index]).into()),
            Err(refusal) => refused(refusal),
        },
        ("ghj_by_suite", response) => match heard(response) {
            Ok((channel, list)) => written([&[channel], list].concat()),
            Err(refusal) => refused(refusal),
        },
        ("by_suite_written", &[channel, length, ref bytes @ ..]) => {
            let bytes = bytes.try_into().ok()?;
            // No reader gives a numbered channel of another number.
            if !matches!(channel, 1..=0xB) {
                return Some(refused(NO_FORM));
            }
            answer_written((channel, length.into(), bytes)).map_or_else(refused, written)
        }
        ("joined_suites", &[channel, ref answers @ ..]) => joined(channel, &spelled(answers)),
        _ => return None,
    };
    Some(said)
}

/// Of each answer its index, its length, then its bytes. One that is cut off
/// ends them.
fn spelled(mut data: &[u8]) -> Vec<Answer> {
    let mut history = Vec::new();
    while let &[index, length, ref rest @ ..] = data {
        let Some((bytes, rest)) = rest.split_at_checked(length.into()) else {
            break;
        };
        history.push(Answer {
            index,
            bytes: bytes.to_vec(),
        });
        data = rest;
    }
    history
}

/// The last answer's refusal, or the suites of all that were accepted.
fn joined(channel: u8, history: &[Answer]) -> Said {
    let mut collector = match ChannelCollector::made_for(channel) {
        Ok(collector) => collector,
        Err(refusal) => return refused(refusal),
    };
    let last = history.iter().map(|answer| collector.hear(answer)).last();
    if let Some(Verdict::Refused(refusal)) = last {
        return refused(refusal);
    }
    match collector.status() {
        Status::Complete(list) => written(suites(&list)),
        Status::Missing(index) => refused_with(INCOMPLETE, index.into()),
    }
}
