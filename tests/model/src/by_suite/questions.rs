//! The list of questions on suites by suite.

use super::{CHANNELS, CURRENT};
use crate::collector::{answer_of, Answer, LAST_INDEX};
use crate::history::{by_suite, honest, Random};
use replay_form::List;

/// One suite, as a controller of channel 1 answers.
const ANSWER: [u8; 6] = [0x01, 0xC0, 0x03, 0x01, 0x41, 0x81];

/// Malformed, cut short, or without arguments.
const BAD: [(&str, &str); 12] = [
    ("ghj_by_suite_request", ""),
    ("ghj_by_suite_request", " 01"),
    ("ghj_by_suite_request", " 01 02 03"),
    ("ghj_by_suite_request", " 01 0"),
    ("by_suite_read", " 01 00 8"),
    ("by_suite_read", "  01 00 82"),
    ("ghj_by_suite", " 01 C0 0G"),
    ("ghj_by_suite", " 01 C0 03 "),
    ("by_suite_written", ""),
    ("by_suite_written", " 01 05"),
    ("joined_suites", ""),
    ("joined_suites", " 01 00 01 0"),
];

/// No such functions.
const NONE: [&str; 3] = [
    " 8E 04 00 01 00 01 01",
    " 8F 13 00 01 C0",
    " 99 05 00 01 02",
];

pub fn questions(list: &mut List) {
    let mut random = Random::new(b"Suites by suite");
    list.heading("Suites by suite, requests");
    request_questions(list, &mut random);
    list.heading("Suites by suite, answers read");
    answer_questions(list, &mut random);
    list.heading("Suites by suite, answers written");
    written_questions(list, &mut random);
    list.heading("Suites by suite, answers joined");
    joined_questions(list);
    list.heading("Suites by suite, random histories, whole and cut off");
    random_questions(list, &mut random);
    list.heading("Suites by suite, too little room, and just enough");
    list.scarce("ghj_by_suite_request", &[0x01, 0x02], 3);
    list.scarce("ghj_by_suite", &ANSWER, 6);
    list.scarce("ghj_by_suite", &[0xF1; 17], 17);
    list.scarce("by_suite_written", &laid(1, 16, &[0xC0; 16]), 17);
    list.scarce("joined_suites", &spelled(1, &[one(0, &ANSWER)]), 1);
    list.heading("Suites by suite, bad questions");
    for (name, text) in BAD {
        list.text(name, text);
    }
    for line in NONE {
        list.line(line);
    }
    for length in (0..18).chain(19..22) {
        list.one("by_suite_written", &vec![0x01; length]);
    }
}

fn request_questions(list: &mut List, random: &mut Random) {
    for index in [0x00, 0x02, 0x3F, 0x40, 0x80] {
        list.sweep("ghj_by_suite_request", &[0x00, index], 0);
    }
    for channel in [0x00, 0x01, 0x0B, 0x0C, 0x0E, 0x0F, 0x10] {
        list.sweep("ghj_by_suite_request", &[channel, 0x00], 1);
    }
    for background in [
        [0x00, 0x00, 0x80],
        [0x01, 0x00, 0x82],
        [0x0E, 0x00, 0xBF],
        [0x0F, 0x00, 0x3F],
    ] {
        list.each_byte("by_suite_read", &background);
    }
    for first in 0..=u8::MAX {
        list.sweep("by_suite_read", &[first, 0x00, 0x00], 2);
    }
    for length in 0..=6 {
        for byte in [0x00, 0x01, 0x80] {
            list.one("by_suite_read", &vec![byte; length]);
        }
        let request: Vec<u8> = (0..length).map(|_| random.next() as u8).collect();
        list.one("by_suite_read", &request);
    }
    // Two bytes changed at once.
    for _ in 0..100 {
        let mut request = [
            random.next() as u8 % 16,
            0x00,
            0x80 + random.next() as u8 % 64,
        ];
        for _ in 0..2 {
            let place = random.next() % 3;
            request[place] ^= 1 << (random.next() % 8);
        }
        list.one("by_suite_read", &request);
    }
}

fn answer_questions(list: &mut List, random: &mut Random) {
    for length in 1..=20 {
        list.sweep("ghj_by_suite", &vec![0xC0; length], 0);
    }
    for length in (0..=40).chain([100, 255, 256, 257, 1024]) {
        for byte in [0x00, 0x01, 0x0C, 0xFF] {
            list.one("ghj_by_suite", &vec![byte; length]);
        }
        let response: Vec<u8> = (0..length).map(|_| random.next() as u8).collect();
        list.one("ghj_by_suite", &response);
    }
}

fn laid(channel: u8, length: u8, bytes: &[u8; 16]) -> Vec<u8> {
    [&[channel, length][..], bytes].concat()
}

fn written_questions(list: &mut List, random: &mut Random) {
    let full: [u8; 16] = std::array::from_fn(|place| place as u8 + 1);
    for (length, bytes) in [(0, [0; 16]), (5, [0; 16]), (16, full), (17, full)] {
        list.sweep("by_suite_written", &laid(0, length, &bytes), 0);
    }
    for channel in [0x01, 0x0B, 0x0C] {
        list.sweep("by_suite_written", &laid(channel, 0, &[0; 16]), 1);
        list.sweep("by_suite_written", &laid(channel, 0, &full), 1);
    }
    // One byte alone that is not 0, before the length and behind it.
    for place in 0..16 {
        let mut bytes = [0; 16];
        bytes[place] = 0x80;
        for length in 0..=16 {
            list.one("by_suite_written", &laid(0x07, length, &bytes));
        }
    }
    for _ in 0..100 {
        let length = random.next() % 18;
        let mut bytes: [u8; 16] = std::array::from_fn(|_| random.next() as u8);
        if random.next() % 4 > 0 {
            bytes[length.min(16)..].fill(0);
        }
        let channel = random.next() as u8 % 13;
        list.one("by_suite_written", &laid(channel, length as u8, &bytes));
    }
}

fn one(index: u8, bytes: &[u8]) -> Answer {
    Answer {
        index,
        bytes: bytes.to_vec(),
    }
}

fn spelled(channel: u8, history: &[Answer]) -> Vec<u8> {
    let mut data = vec![channel];
    for answer in history {
        data.extend([answer.index, answer.bytes.len() as u8]);
        data.extend(&answer.bytes);
    }
    data
}

/// The history, asked behind each of its answers.
fn each_prefix(list: &mut List, channel: u8, history: &[Answer]) {
    for length in 0..=history.len() {
        list.one("joined_suites", &spelled(channel, &history[..length]));
    }
}

fn joined_questions(list: &mut List) {
    // Made for any number, with no answer, and with one of any channel.
    list.sweep("joined_suites", &[0], 0);
    for channel in 0..=0x10 {
        list.sweep("joined_suites", &spelled(channel, &[one(0, &ANSWER)]), 3);
        list.sweep("joined_suites", &spelled(channel, &[one(0, &[0])]), 3);
    }
    // Of any index, and with a first byte and a length that are refused.
    for bytes in [&ANSWER[..], &[], &[0x0C], &[0x02; 18], &[0x0D; 18], &[0x02]] {
        list.sweep("joined_suites", &spelled(1, &[one(0, bytes)]), 1);
        list.sweep("joined_suites", &spelled(CURRENT, &[one(0, bytes)]), 1);
    }
    // A channel is taken from the first accepted answer, and from no refused
    // one; then any other one comes.
    for first in [
        one(64, &ANSWER),
        one(0, &[]),
        one(0, &[0x02; 18]),
        one(0, &[0x0C]),
        one(1, &[0x01]),
        one(1, &[0x1E]),
        one(1, &[0x0F]),
        one(1, &[0x02, 0xC0]),
    ] {
        for channel in [CURRENT, 0x01, 0x02, 0x0F] {
            let history = [first.clone(), one(0, &ANSWER)];
            let place = 3 + first.bytes.len() + 2;
            list.sweep("joined_suites", &spelled(channel, &history), place);
        }
    }
    // 15 before 12, and each by itself.
    let full = [&[0x01], &[0xC0; 16][..]].concat();
    for history in [
        [one(0, &ANSWER), one(0, &ANSWER[..5]), one(0, &ANSWER)],
        [one(0, &ANSWER), one(1, &ANSWER), one(1, &[0x01])],
        [one(0, &full), one(2, &[0x01]), one(1, &[0x01, 0xC0])],
        [one(1, &[0x01]), one(0, &ANSWER), one(0, &full)],
        [one(63, &full), one(0, &[0x01]), one(63, &full)],
    ] {
        for channel in [0x01, CURRENT] {
            each_prefix(list, channel, &history);
            let mut others = history.clone();
            others[1].bytes[0] = 0x02;
            each_prefix(list, channel, &others);
            others[1].bytes[0] = 0xF1;
            each_prefix(list, channel, &others);
        }
    }
    // Lists of records, in order, up to the longest.
    let records: Vec<u8> = (0..205u8)
        .flat_map(|number| [0xC0, number % 20, 0x01, 0x41, 0x81])
        .take(1024)
        .collect();
    for length in [0, 1, 4, 5, 15, 16, 17, 32, 100, 1007, 1008, 1023, 1024] {
        let last = (length / 16).min(LAST_INDEX.into()) as u8;
        let history: Vec<Answer> = (0..=last)
            .map(|index| heard_from(0xA7, answer_of(&records[..length], index)))
            .collect();
        let (end, before) = history.split_last().expect("an answer");
        for channel in [0x07, CURRENT, 0x08] {
            list.one("joined_suites", &spelled(channel, &history));
            list.one("joined_suites", &spelled(channel, before));
        }
        let turned: Vec<Answer> = history.iter().rev().cloned().collect();
        list.one("joined_suites", &spelled(0x07, &turned));
        list.one("joined_suites", &spelled(0x07, &turned[1..]));
        let repeated = [&history[..], &[end.clone()]].concat();
        list.one("joined_suites", &spelled(0x07, &repeated));
    }
    // A list with losses, of every channel.
    for channel in CHANNELS {
        let mut history = honest(300, 4, channel);
        for answer in &mut history {
            answer.bytes.insert(0, 0x40 + channel);
        }
        list.one("joined_suites", &spelled(channel, &history));
        list.one("joined_suites", &spelled(CURRENT, &history));
    }
    // An answer that is cut off ends them.
    let two = spelled(1, &[one(1, &[0x01]), one(0, &ANSWER)]);
    for length in 1..=two.len() {
        list.one("joined_suites", &two[..length]);
    }
}

fn heard_from(first: u8, mut answer: Answer) -> Answer {
    answer.bytes.insert(0, first);
    answer
}

fn random_questions(list: &mut List, random: &mut Random) {
    for seed in 0..150u32 {
        let (channel, mut history) = by_suite(&seed.to_be_bytes());
        history.truncate(24);
        list.one("joined_suites", &spelled(channel, &history));
        for _ in 0..2 {
            let end = random.next() % (history.len() + 1);
            list.one("joined_suites", &spelled(channel, &history[..end]));
        }
    }
}
