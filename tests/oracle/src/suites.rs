//! Get Channel Cipher Suites: the table of suites, the request, the response and
//! the reading of records.

use crate::app::auth::{
    ChannelCipherSuites, CipherSuite, ConfidentialityAlgorithm, GetChannelCipherSuites,
};
use crate::bytes::Random;
use crate::channel::{channels, read};
use crate::connection::{IpmiCommand, Message};
use crate::leaves::{channel, named, CONFIDENTIALITIES};
use replay_form::{none, number, refused, written, List, Row, Said};

const TOO_MUCH_DATA: u8 = 2;
const BAD_INDEX: u8 = 7;

/// What a step writes that gives nothing.
const NOTHING: u8 = 0xFF;

#[rustfmt::skip]
pub const ROWS: [Row; 11] = [
    Row { number: 0x06, name: "ghj_suites", room: |_| 18 },
    Row { number: 0x07, name: "ghj_suite_numbers", room: |n| n / 5 + 2 },
    Row { number: 0x0D, name: "suites_part", room: |_| 18 },
    Row { number: 0x0E, name: "suites_written", room: |_| 18 },
    Row { number: 0x0F, name: "suite_steps", room: |n| n + 3 },
    Row { number: 0x15, name: "suites_read", room: |_| 0 },
    Row { number: 0x28, name: "ghj_suite_algorithms", room: |_| 5 },
    Row { number: 0x39, name: "suite", room: |_| 0 },
    Row { number: 0x3A, name: "suite_confidentiality", room: |_| 0 },
    Row { number: 0x42, name: "ghj_suites_request", room: |_| 5 },
    Row { number: 0x53, name: "ghj_suite_of", room: |_| 0 },
];

/// The start of a record, a number it can have, the first suite, the last and
/// the first number behind it, and a byte that is none of these.
const ALPHABET: [u8; 6] = [0xC0, 0x00, 0x03, 0x13, 0x14, 0xFF];

/// Whole, and a step at a time.
const READINGS: [&str; 2] = ["ghj_suite_numbers", "suite_steps"];

/// As many bytes as a controller can say.
const LONGEST: usize = 1024;

/// Malformed, or with another number of arguments.
const BAD: [(&str, &str); 17] = [
    ("suite", ""),
    ("suite", " 3"),
    ("suite", " 03 03"),
    ("suite_confidentiality", ""),
    ("suite_confidentiality", " 00 00"),
    ("ghj_suite_of", ""),
    ("ghj_suite_of", " 01 01"),
    ("ghj_suite_of", " 01 01 01 01"),
    ("ghj_suite_of", " 01  01 01"),
    ("ghj_suites_request", ""),
    ("ghj_suites_request", " 01"),
    ("ghj_suites_request", " 01 02 00"),
    ("suites_read", " 01 00 2"),
    ("ghj_suites", " C0 3"),
    ("suites_written", "  C0"),
    ("ghj_suite_numbers", " C0 03 01 41 8"),
    ("suite_steps", "  C0"),
];

pub fn questions(list: &mut List) {
    let mut random = Random::new(0x5375_6974_6573_2121);
    list.heading("the table of suites");
    table_questions(list, &mut random);
    list.heading("suites, requests");
    request_questions(list, &mut random);
    list.heading("suites, responses");
    response_questions(list, &mut random);
    list.heading("suites, lists: all of two bytes, and all of six letters");
    short_questions(list);
    list.heading("suites, lists of records");
    record_questions(list, &mut random);
    bad_questions(list);
}

fn table_questions(list: &mut List, random: &mut Random) {
    for name in ["suite", "ghj_suite_algorithms", "suite_confidentiality"] {
        list.sweep(name, &[0], 0);
    }

    // The whole neighbourhood of the table, and its rows with a bit too many.
    list.sweep_over("ghj_suite_of", &[0; 3], 0, 3, &[0, 1, 2, 3, 4, 5]);
    for suite in suites() {
        for place in 0..3 {
            for bit in [0x40, 0x80] {
                let mut triple = suite.into_suite();
                triple[place] |= bit;
                list.one("ghj_suite_of", &triple);
            }
        }
    }
    for _ in 0..500 {
        list.one("ghj_suite_of", &random.bytes(3));
    }
    // All that a record can have: six bits each.
    for first in 0..=0x3F {
        list.sweep_over("ghj_suite_of", &[first, 0, 0], 1, 2, &six_bits());
    }
}

fn six_bits() -> Vec<u8> {
    (0..=0x3F).collect()
}

fn request_questions(list: &mut List, random: &mut Random) {
    for index in [0x00, 0x02, 0x3F, 0x40, 0xFF] {
        list.sweep("ghj_suites_request", &[0, index], 0);
    }
    // The last two are refused for the channel, whatever the index is.
    for number in [0x00, 0x01, 0x0B, 0x0E, 0x0F, 0x0C, 0x10] {
        list.sweep("ghj_suites_request", &[number, 0], 1);
    }

    list.each_byte("suites_read", &[0x01, 0x00, 0x02]);
    list.each_byte("suites_read", &[0x0E, 0x00, 0x3F]);
    list.each_byte("suites_read", &[0x00, 0x80, 0x00]);
    for length in 0..=6 {
        list.one("suites_read", &vec![0x00; length]);
        list.one("suites_read", &vec![0xFF; length]);
        let command = [0x01, 0x00, 0x02, 0x01, 0x00, 0x02];
        list.one("suites_read", &command[..length]);
        list.one("suites_read", &random.bytes(length));
    }
    for _ in 0..300 {
        let [channel, index] = [random.byte() % 0x14, random.byte() % 0x48];
        list.one("suites_read", &[channel, 0x00, index]);
    }
}

fn response_questions(list: &mut List, random: &mut Random) {
    // Below, at and above the length that is refused; zeros have to be kept
    // apart from bytes that are not there.
    for length in 0..=40 {
        let zeros = vec![0x00; length];
        let ones = vec![0xFF; length];
        let cut = records(random, 8)[..length].to_vec();
        let any = random.bytes(length);
        for data in [zeros, ones, cut, any] {
            ask_for_part(list, &data);
            list.one("suites_written", &data);
        }
    }
    for _ in 0..300 {
        let length = usize::from(random.byte() % 17);
        let data = random.bytes(length);
        ask_for_part(list, &data);
        list.one("suites_written", &data);
    }
    for length in [64, 255, 256, 257, 1000, LONGEST] {
        ask_for_part(list, &random.bytes(length));
        list.one("suites_written", &random.bytes(length));
    }
}

/// By C, and the filled part of the record.
fn ask_for_part(list: &mut List, data: &[u8]) {
    list.one("ghj_suites", data);
    list.one("suites_part", data);
}

/// All strings up to two bytes, and all over the alphabet up to six.
fn short_questions(list: &mut List) {
    ask_for_reading(list, &[]);
    for name in READINGS {
        list.sweep(name, &[0], 0);
        for first in 0..=u8::MAX {
            list.sweep(name, &[first, 0], 1);
        }
        for (start, running) in starts() {
            let data = [&start[..], &vec![0; running.into()]].concat();
            list.sweep_over(name, &data, start.len(), running, &ALPHABET);
        }
    }
}

/// Strings over the alphabet, and how many more letters stand behind each: one
/// to three, six together.
fn starts() -> Vec<(Vec<u8>, u8)> {
    let mut all = vec![(vec![], 1), (vec![], 2), (vec![], 3)];
    let mut done = 2;
    while all[done].0.len() < 3 {
        for byte in ALPHABET {
            all.push(([&all[done].0[..], &[byte]].concat(), 3));
        }
        done += 1;
    }
    all
}

fn record_questions(list: &mut List, random: &mut Random) {
    // P10: an unknown number, then a suite.
    ask_for_reading(list, &[0xC0, 0x14, 0xC0, 0x03, 0x01, 0x41, 0x81]);

    // A record of each number, alone and before another.
    for number in 0..=u8::MAX {
        let record = [0xC0, number, 0x01, 0x41, 0x81];
        ask_for_reading(list, &record);
        ask_for_reading(list, &[record, [0xC0, 0x11, 0x03, 0x44, 0x81]].concat());
    }
    // Whole lists, cut at every place of the last record and of the first.
    for count in [0, 1, 2, 3, 20, 51] {
        let data = records(random, count + 1);
        for length in 5 * count..=5 * count + 5 {
            ask_for_reading(list, &data[..length]);
        }
    }
    // The longest ones: 204 records, and four bytes more.
    for length in 1018..=LONGEST {
        ask_for_reading(list, &records(random, 205)[..length]);
    }

    for turn in 0..240 {
        // A few are long, most are not.
        let longest = if turn % 12 == 0 { 204 } else { 40 };
        let count = usize::from(random.byte()) % longest + 1;
        let mut data = records(random, count);
        for _ in 0..turn % 4 {
            damage(&mut data, random);
        }
        ask_for_reading(list, &data);
    }
    for turn in 0..240 {
        let length = match turn % 12 {
            0 => usize::from(random.byte()) * 4 + 4,
            _ => usize::from(random.byte() % 96),
        };
        ask_for_reading(list, &pieces(random, length));
    }
    for length in [3, 10, 100, LONGEST] {
        ask_for_reading(list, &random.bytes(length));
        ask_for_reading(list, &vec![0xC0; length]);
        ask_for_reading(list, &vec![0x00; length]);
    }
}

fn ask_for_reading(list: &mut List, data: &[u8]) {
    for name in READINGS {
        list.one(name, data);
    }
}

/// Records of the table, one behind the other, with the tags of the standard or
/// with any bytes in their place.
fn records(random: &mut Random, count: usize) -> Vec<u8> {
    let tagged = random.byte() % 2 == 0;
    let mut data = Vec::new();
    for _ in 0..count {
        let number = random.byte() % 20;
        data.extend([0xC0, number]);
        match CipherSuite::from_id(number) {
            Some(suite) if tagged => {
                let [authentication, integrity, confidentiality] = suite.into_suite();
                data.extend([authentication, integrity | 0x40, confidentiality | 0x80]);
            }
            _ => data.extend(random.bytes(3)),
        }
    }
    data
}

/// One byte other, less or more, or all cut off from a place on. The data is
/// not empty, and is not longer than what can be asked.
fn damage(data: &mut Vec<u8>, random: &mut Random) {
    if data.is_empty() {
        return;
    }
    let place = usize::from(random.byte()) * 256 + usize::from(random.byte());
    let place = place % data.len();
    match random.byte() % 8 {
        0 => data[place] = random.byte(),
        1 => data[place] = 0xC0,
        2 => data[place] = 0x14,
        // An OEM record's start.
        3 => data[place / 5 * 5] = 0xC1,
        4 => data[place] ^= 1 << (random.byte() % 8),
        5 => drop(data.remove(place)),
        6 if data.len() < LONGEST => data.insert(place, random.byte()),
        _ => data.truncate(place),
    }
}

/// Records among starts with an unknown number, of which only the two bytes are
/// taken: steps that give nothing, and that are not the last to give something.
fn pieces(random: &mut Random, length: usize) -> Vec<u8> {
    let mut data = Vec::new();
    while data.len() < length {
        match random.byte() % 64 {
            0..=31 => data.extend(records(random, 1)),
            32..=51 => data.extend([0xC0, 20 + random.byte() % 236]),
            52..=61 => data.extend([0xC0, 0xC0]),
            // A suite's number without its record: it takes the next one's start.
            62 => data.extend([0xC0, random.byte() % 20]),
            _ => data.push(random.byte()),
        }
    }
    data.truncate(length);
    data
}

fn bad_questions(list: &mut List) {
    list.heading("suites, bad questions");
    for (name, text) in BAD {
        list.text(name, text);
    }
    // Sweeps of arguments that are not there, and of too many.
    list.sweep_over("ghj_suite_of", &[0], 1, 2, &six_bits());
    list.sweep_over("ghj_suite_of", &[0, 0], 1, 2, &six_bits());
    list.sweep("ghj_suite_numbers", &[0], 1);
    list.sweep("suite_steps", &[0, 0], 2);
    list.sweep_over("suite_steps", &[0xC0; 8], 4, 4, &ALPHABET);
}

pub fn answer(name: &str, data: &[u8], room: usize) -> Option<Said> {
    let said = match (name, data) {
        ("suite", &[number]) => suite(number),
        ("ghj_suite_algorithms", &[number]) => algorithms(number),
        ("suite_confidentiality", &[number]) => suite_confidentiality(number),
        ("ghj_suite_of", &[a, i, c]) => suite_of([a, i, c]),
        ("ghj_suites_request", &[number, index]) => request(number, index),
        ("suites_read", data) => read(data, commands()),
        ("ghj_suites" | "suites_part", data) => part(data, |part| part.to_vec()),
        // The standard's answer (IPMI 2.0, Table 22-17): the part, as it was read.
        ("suites_written", data) => part(data, |_| data.to_vec()),
        ("ghj_suite_numbers", data) => numbers(data),
        ("suite_steps", data) => steps(data, room),
        _ => return None,
    };
    Some(said)
}

fn suites() -> impl Iterator<Item = CipherSuite> {
    (0..=u8::MAX).filter_map(CipherSuite::from_id)
}

fn of_suite(number: u8, said: impl Fn(CipherSuite) -> Said) -> Said {
    CipherSuite::from_id(number).map_or_else(none, said)
}

/// Its number, then those of its authentication and of its integrity.
fn suite(number: u8) -> Said {
    of_suite(number, |suite| {
        let [authentication, integrity] = [suite.authentication().into(), suite.integrity().into()];
        let bytes = [suite.id(), authentication, integrity, 0];
        replay_form::number(u32::from_le_bytes(bytes).into())
    })
}

fn algorithms(number: u8) -> Said {
    of_suite(number, |suite| {
        // The crate has two ways to a row; one answer can stand for both only
        // while they agree.
        assert_eq!(&suite.into_suite(), suite.as_suite());
        written(suite.into_suite())
    })
}

/// The standard's answer, not the crate's, which reads the column of the
/// integrity (IPMI 2.0, the table of suites in 22.15).
fn suite_confidentiality(number: u8) -> Said {
    of_suite(number, |suite| {
        named::<ConfidentialityAlgorithm>(suite.into_suite()[2], &CONFIDENTIALITIES)
    })
}

fn suite_of(triple: [u8; 3]) -> Said {
    CipherSuite::from_suite(triple).map_or_else(none, |suite| number(suite.id().into()))
}

fn request(number: u8, index: u8) -> Said {
    channel(number, |channel| {
        match GetChannelCipherSuites::new(channel, index) {
            Some(command) => written(Message::from(command).data()),
            None => refused(BAD_INDEX),
        }
    })
}

fn commands() -> impl Iterator<Item = ([u8; 2], Message)> {
    channels().flat_map(|channel| {
        (0..=u8::MAX).filter_map(move |index| {
            let command = GetChannelCipherSuites::new(channel, index)?;
            Some(([channel.value(), index], command.into()))
        })
    })
}

fn part(data: &[u8], bytes: impl Fn(&ChannelCipherSuites) -> Vec<u8>) -> Said {
    match GetChannelCipherSuites::parse_success_response(data) {
        Ok(part) => written(bytes(&part)),
        // The crate's error has no name outside its module, and one value.
        Err(_) => refused(TOO_MUCH_DATA),
    }
}

/// Up to the first call that gives nothing, as any caller of an iterator reads
/// it.
fn numbers(data: &[u8]) -> Said {
    let suites = ChannelCipherSuites::parse_full_data(data);
    written(suites.map(|suite| suite.id()).collect::<Vec<u8>>())
}

/// Each call by itself, as many as there are bytes lent.
fn steps(data: &[u8], room: usize) -> Said {
    let mut reading = ChannelCipherSuites::parse_full_data(data);
    let steps = (0..room).map(|_| reading.next().map_or(NOTHING, |suite| suite.id()));
    written(steps.collect::<Vec<u8>>())
}

#[cfg(test)]
mod tests {
    use super::*;
    use replay_form::Asked;
    use std::collections::HashSet;
    use std::panic::catch_unwind;

    /// `suite_confidentiality` is answered without the crate's `confidentiality`.
    /// What it hides is this and nothing else.
    #[test]
    fn confidentiality_differs_as_listed() {
        let mut wrong = Vec::new();
        let mut panics = Vec::new();
        for suite in suites() {
            let column = ConfidentialityAlgorithm::try_from(suite.into_suite()[2]);
            match catch_unwind(|| suite.confidentiality()) {
                Ok(algorithm) if Ok(algorithm) == column => {}
                Ok(_) => wrong.push(suite.id()),
                Err(_) => panics.push(suite.id()),
            }
        }
        assert_eq!(wrong, [2, 4, 5, 7, 8, 10, 11, 12, 13]);
        assert_eq!(panics, [16, 17, 18, 19]);
    }

    #[test]
    fn all_strings_over_the_alphabet_are_read() {
        for name in READINGS {
            let row = ROWS.iter().find(|row| row.name == name).expect("a row");
            let mut list = List::new(ROWS.to_vec());
            short_questions(&mut list);
            let asked = list
                .lines
                .iter()
                .filter_map(|line| Asked::read(line.as_bytes()));
            let questions = asked.flat_map(|asked| asked.questions());
            let read: HashSet<Vec<u8>> = questions
                .filter(|question| question.function == row.number)
                .map(|question| question.arguments)
                .filter(|data| data.iter().all(|byte| ALPHABET.contains(byte)))
                .collect();
            // Of up to six bytes, and none other.
            let all = (0..=6).map(|length| ALPHABET.len().pow(length));
            assert_eq!(read.len(), all.sum());
            assert!(read.iter().all(|data| data.len() <= 6));
        }
    }
}
