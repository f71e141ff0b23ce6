//! What is answered to the questions on Set Channel Access.

use super::{read, Access, Command, Settings};
use replay_form::{refused, written, Row, Said};

#[rustfmt::skip]
pub const ROWS: [Row; 5] = [
    Row { number: 0x80, name: "ghj_set_access_request", room: |_| 5 },
    Row { number: 0x81, name: "ghj_set_access", room: |_| 10 },
    Row { number: 0x82, name: "set_written", room: |_| 5 },
    Row { number: 0x83, name: "ghj_set_access_apply", room: |_| 12 },
    Row { number: 0x84, name: "set_applied", room: |_| 12 },
];

pub fn answer(name: &str, data: &[u8]) -> Option<Said> {
    let answer = match (name, data) {
        ("ghj_set_access_request", &[channel, mode_pair, limit_pair, ref rest @ ..]) => {
            let command = command(channel, [mode_pair, limit_pair], rest)?;
            command.write().map(Vec::from)
        }
        ("ghj_set_access", data) => read(data).map(laid),
        ("set_written", data) => read(data).and_then(|command| command.write().map(Vec::from)),
        ("ghj_set_access_apply", &[mode_pair, limit_pair, ref rest @ ..]) => {
            let (own, before) = rest.split_at_checked(5)?;
            let before = settings(before)?;
            // Any channel will do.
            let command = command(0, [mode_pair, limit_pair], own)?;
            command.apply(&before).map(|after| after.concat())
        }
        ("set_applied", data) => {
            let (before, request) = data.split_at_checked(10)?;
            let before = settings(before)?;
            let after = read(request).and_then(|command| command.apply(&before));
            after.map(|after| after.concat())
        }
        _ => return None,
    };
    Some(answer.map_or_else(refused, written))
}

fn command(channel: u8, pairs: [u8; 2], rest: &[u8]) -> Option<Command> {
    Some(Command {
        channel,
        pairs,
        access: access(rest)?,
    })
}

/// A flag is set where it is not 0.
fn access(data: &[u8]) -> Option<Access> {
    let &[mode, alerting, per_message, user_level, limit] = data else {
        return None;
    };
    let [alerting, per_message, user_level] =
        [alerting, per_message, user_level].map(|flag| flag.min(1));
    Some([mode, alerting, per_message, user_level, limit])
}

fn settings(data: &[u8]) -> Option<Settings> {
    let (non_volatile, volatile) = data.split_at_checked(5)?;
    Some([access(non_volatile)?, access(volatile)?])
}

/// Channel, pairs, access record.
fn laid(command: Command) -> Vec<u8> {
    [&[command.channel], &command.pairs[..], &command.access].concat()
}
