//! A model of the collector, made from the demand and from nothing of the port:
//! what does a fresh collector say of a history of answers? And one of Set
//! Channel Access, one of records with tags and one of suites by suite, made
//! likewise.

pub mod by_suite;
pub mod collector;
pub mod history;
pub mod records;
pub mod replay;
pub mod settings;
mod text;

use collector::{answer_of, Answer, Collector, Hears, Status, LAST_INDEX, PART};
use history::KINDS;
use std::collections::BTreeMap;
use text::write;

/// More would make the line of an answer too long.
const MOST_ANSWERS: usize = 128;

/// Random histories for a long run.
const MILLION: u32 = 1 << 20;

/// The model of the collector's answer to a line, which comes without its
/// newline.
pub fn answer(line: &[u8]) -> String {
    answer_by::<Collector>(line)
}

/// The answer of any collector.
pub fn answer_by<C: Hears>(line: &[u8]) -> String {
    ask::<C>(line).unwrap_or_else(|| "bad question".to_string())
}

/// The hash of the answers to the long list.
pub fn million_by<C: Hears>() -> String {
    let lines = million().into_iter();
    text::hash_lines(lines.map(|line| answer_by::<C>(line.as_bytes())))
}

fn ask<C: Hears>(line: &[u8]) -> Option<String> {
    let (word, data) = text::read(line)?;
    let answer = match (word, &data[..]) {
        ("collect", data) => text::told::<C>(&spelled(data)?).text,
        ("honest", &[high, low, kind, seed]) => {
            let length = usize::from(u16::from_be_bytes([high, low]));
            if length > collector::CAPACITY || kind >= KINDS {
                return None;
            }
            text::short::<C>(&history::honest(length, kind, seed))
        }
        ("random", &[a, b, c, d]) => text::short::<C>(&history::random(&[a, b, c, d])),
        ("random_all", &[a, b, c]) => text::hash_lines(
            (0..=u8::MAX).map(|d| text::short::<C>(&history::random(&[a, b, c, d]))),
        ),
        ("pairs_all", &[index, length]) if index <= LAST_INDEX && length <= 16 => {
            pairs_all::<C>(index, length)
        }
        _ => return None,
    };
    Some(answer)
}

/// Of each answer its index, its length, then its bytes.
fn spelled(mut data: &[u8]) -> Option<Vec<Answer>> {
    let mut history = Vec::new();
    while let Some((&index, rest)) = data.split_first() {
        let (&length, rest) = rest.split_first()?;
        let (bytes, rest) = rest.split_at_checked(length.into())?;
        history.push(Answer {
            index,
            bytes: bytes.to_vec(),
        });
        data = rest;
    }
    (history.len() <= MOST_ANSWERS).then_some(history)
}

/// This answer, then any other one, legal or next to it.
fn pairs_all<C: Hears>(index: u8, length: u8) -> String {
    let others = (0..=64).flat_map(|index| (0..=17).map(move |length| (index, length)));
    text::hash_lines(
        others.map(|other| text::told::<C>(&history::pair((index, length), other)).text),
    )
}

/// The list of questions on the collector, in order.
pub fn questions() -> Vec<String> {
    let mut list = Vec::new();
    spelled_questions(&mut list);
    for kind in 0..KINDS {
        for length in 0..=collector::CAPACITY as u16 {
            let [high, low] = length.to_be_bytes();
            list.push(write("honest", &[high, low, kind, 0]));
        }
    }
    for index in [0, 1, 2, 31, 62, 63] {
        for length in [0, 1, 15, 16] {
            list.push(write("pairs_all", &[index, length]));
        }
    }
    for seed in 0..2000u32 {
        list.push(write("random", &seed.to_be_bytes()));
    }
    // None of these has been asked yet.
    for high in 0..16 {
        list.push(write("random_all", &[0xFF, 0x00, high]));
    }
    list.extend(BAD.map(String::from));
    list
}

/// All pairs of legal answers, then 2 to the power of 20 random histories: too
/// many for every day.
pub fn million() -> Vec<String> {
    let mut list = Vec::new();
    for index in 0..=LAST_INDEX {
        for length in 0..=16 {
            list.push(write("pairs_all", &[index, length]));
        }
    }
    for high in 0..MILLION / 256 {
        list.push(write("random_all", &high.to_be_bytes()[1..]));
    }
    list
}

/// The hash of the answers to the long list, and what became of the answers of
/// its random histories: where an outcome is rare, they are no good test of it.
pub fn digest() -> String {
    let mut digest = format!("{} hash\n", million_by::<Collector>());

    let mut tally: BTreeMap<String, u32> = BTreeMap::new();
    for seed in 0..MILLION {
        let mut collector = Collector::fresh();
        let mut complete = "incomplete";
        for answer in history::random(&seed.to_be_bytes()) {
            let verdict = collector.hear(&answer);
            complete = match collector.status() {
                Status::Complete(_) => "complete",
                Status::Missing(_) => "incomplete",
            };
            *tally.entry(format!("{verdict:?}, {complete}")).or_default() += 1;
        }
        *tally.entry(format!("history {complete}")).or_default() += 1;
    }
    for (what, count) in tally {
        digest += &format!("{count} {what}\n");
    }
    digest
}

/// Malformed, cut short, or with a number that is too high.
const BAD: [&str; 17] = [
    "",
    "collects",
    "collect 0",
    "collect  00",
    "collect 00",
    "collect 00 01",
    "collect 00 02 C0",
    "collect 00 00 01",
    "honest 00 00 00",
    "honest 04 01 00 00",
    "honest 00 00 06 00",
    "honest 00 00 00 00 00",
    "random 00 00 00",
    "random_all 00 00",
    "pairs_all 40 00",
    "pairs_all 00 11",
    "pairs_all 00",
];

fn spelled_questions(list: &mut Vec<String>) {
    let mut ask = |history: &[Answer]| list.push(spell(history));
    // All have the bytes of one list, but where one is changed.
    let whole: Vec<u8> = (0..1024usize).map(|place| (place % 251) as u8).collect();
    let part = |index: u8, length: u8| history::counted((index, length));
    let changed = |index: u8, length: u8, place: usize| {
        let mut answer = part(index, length);
        answer.bytes[place] ^= 0x01;
        answer
    };

    ask(&[]);
    // P11, P12, P13, and sixteen and seventeen bytes at index 63.
    ask(&[part(0, 0)]);
    ask(&[part(0, 16), part(2, 0), part(1, 3)]);
    ask(&[part(1, 3), part(2, 1)]);
    ask(&[part(63, 16), part(63, 17)]);

    // One answer of any length at any index, also where both are refused.
    for index in [0, 1, 2, 31, 62, 63, 64, 65, 127, 128, 192, 255] {
        for length in [0, 1, 15, 16, 17, 18, 32, 255] {
            ask(&[part(index, length)]);
        }
    }
    // A longer one after a shorter one, and the other way; then both again.
    for length in 0..=16 {
        for other in 0..=16 {
            for index in [0, 1, 63] {
                ask(&[part(index, length), part(index, other), part(index, length)]);
            }
        }
    }
    // A repeat with one byte changed, then the repeat itself.
    for length in [1, 2, 15, 16] {
        for place in 0..usize::from(length) {
            for index in [0, 5, 63] {
                ask(&[
                    part(index, length),
                    changed(index, length, place),
                    part(index, length),
                ]);
            }
        }
    }
    // A repeat with zeros in the place of its bytes, or without its zeros.
    for index in [0, 63] {
        let zeros = |length: u8| Answer {
            index,
            bytes: vec![0; length.into()],
        };
        for length in 1..=16 {
            ask(&[part(index, length), zeros(length)]);
            ask(&[zeros(length), part(index, length)]);
            ask(&[zeros(length), zeros(length - 1), zeros(length)]);
            ask(&[zeros(length - 1), zeros(length), zeros(length - 1)]);
        }
    }
    // The end in one part and something beyond it, or less before it, in all
    // orders of three.
    let lengths = [0, 1, 15, 16];
    for first in lengths {
        for second in lengths {
            for third in lengths {
                let [a, b, c] = [part(0, first), part(1, second), part(2, third)];
                for order in [[&a, &b, &c], [&c, &b, &a], [&b, &c, &a], [&b, &a, &c]] {
                    ask(&order.map(Clone::clone));
                }
                let [a, b, c] = [part(61, first), part(62, second), part(63, third)];
                for order in [[&a, &b, &c], [&c, &b, &a], [&c, &a, &b]] {
                    ask(&order.map(Clone::clone));
                }
            }
        }
    }
    // Refused ones leave no trace: a good list among them, which is whole at
    // the end.
    for length in [0, 5, 16, 20, 32, 40, 48, 100] {
        let last = length / PART;
        let mut history = vec![part(64, 0), part(0, 17), part(255, 255)];
        for index in 0..=last as u8 {
            let good = answer_of(&whole[..length], index);
            history.push(good.clone());
            history.push(part(index, 17));
            history.push(part(64 + index, good.bytes.len() as u8));
            if good.bytes.is_empty() {
                history.push(part(index, 1));
            } else {
                let mut bad = good.clone();
                bad.bytes[0] ^= 0x80;
                history.push(bad);
                let mut cut = good;
                cut.bytes.pop();
                history.push(cut);
            }
        }
        // Beyond the end.
        history.push(part(last as u8 + 1, 1));
        history.push(part(last as u8 + 1, 0));
        history.push(part(63, 16));
        history.push(part(63, 0));
        ask(&history);
    }
    // Always the lowest unheard index, up to where a line ends.
    for length in [0, 1, 15, 16, 17, 31, 32, 33, 255, 256, 500, 800] {
        let history: Vec<Answer> = (0..=(length / PART) as u8)
            .map(|index| answer_of(&whole[..length], index))
            .collect();
        ask(&history);
    }
    // As many as can be asked, and one more.
    for count in [MOST_ANSWERS, MOST_ANSWERS + 1] {
        ask(&vec![part(1, 1); count]);
    }
}

fn spell(history: &[Answer]) -> String {
    let mut data = Vec::new();
    for answer in history {
        data.extend([answer.index, answer.bytes.len() as u8]);
        data.extend(&answer.bytes);
    }
    write("collect", &data)
}
