//! The list of questions on Set Channel Access.

use crate::history::Random;
use replay_form::List;

/// Those that a pair has, the reserved one, and numbers that stand for it too.
const PAIRS: [u8; 6] = [0, 1, 2, 3, 4, 255];

const FLAGS: [u8; 4] = [0, 1, 2, 255];

/// Named and unknown modes and limits, with flags of all kinds; the last two are
/// refused.
const RECORDS: [[u8; 5]; 6] = [
    [0x00, 0x00, 0x00, 0x00, 0x00],
    [0x02, 0x00, 0x01, 0x00, 0x04],
    [0x07, 0x01, 0x00, 0x01, 0x0F],
    [0x05, 0x01, 0x02, 0xFF, 0x06],
    [0x08, 0x00, 0x00, 0x00, 0x04],
    [0x02, 0x00, 0x00, 0x00, 0x10],
];

/// Before the command, non-volatile and volatile ones.
const BEFORE: [[u8; 10]; 4] = [
    [0; 10],
    [0x02, 0, 1, 0, 0x04, 0x07, 1, 0, 1, 0x0F],
    [0x07, 1, 2, 255, 0x0F, 0x01, 0, 0, 1, 0x05],
    [0x08, 1, 1, 1, 0x10, 0xC8, 0, 1, 0, 0xFF],
];

/// Malformed.
const BAD: [(&str, &str); 7] = [
    ("ghj_set_access", " 1"),
    ("ghj_set_access", "  01 3F 04"),
    ("ghj_set_access", " 01 3F 0G"),
    ("ghj_set_access", " 01 3F 04 "),
    ("set_written", " 01 3F 4"),
    ("ghj_set_access_request", " 01 00 00 02 00 00 00 4"),
    (
        "ghj_set_access_apply",
        " 01 02 02 00 00 00 04 02 00 01 00 04 07 01 00 01 0",
    ),
];

/// No such functions.
const NONE: [&str; 3] = [" 8E 00 00", " 8E 0A 00 01 3F 04", " 8F 0A 00 01 3F 04"];

pub fn questions(list: &mut List) {
    let mut random = Random::new(b"Set Channel Access");
    list.heading("Set Channel Access, requests read");
    read_questions(list, &mut random);
    list.heading("Set Channel Access, requests written");
    request_questions(list, &mut random);
    list.heading("Set Channel Access, applied");
    apply_questions(list, &mut random);
    list.heading("Set Channel Access, too little room, and just enough");
    list.scarce("ghj_set_access_request", &[1, 0, 0, 2, 0, 0, 0, 4], 3);
    list.scarce("ghj_set_access", &[0x01, 0x3F, 0x04], 8);
    list.scarce("set_written", &[0x01, 0x3F, 0x04], 3);
    let apply = [&[1, 2], &RECORDS[1][..], &BEFORE[1]].concat();
    list.scarce("ghj_set_access_apply", &apply, 10);
    list.scarce("set_applied", &applied(0x00), 10);
    list.heading("Set Channel Access, bad questions");
    wrong_lengths(list, "ghj_set_access_request", 8);
    wrong_lengths(list, "ghj_set_access_apply", 17);
    for (name, text) in BAD {
        list.text(name, text);
    }
    for line in NONE {
        list.line(line);
    }
    bad_sweeps(list, "ghj_set_access", &[0x01, 0x00, 0x00]);
    bad_sweeps(list, "set_applied", &applied(0x00));
}

/// Malformed, of an argument that is not there, of none, and of too many.
fn bad_sweeps(list: &mut List, name: &str, arguments: &[u8]) {
    list.sweep(name, arguments, 2);
    if let Some(line) = list.lines.last_mut() {
        *line += " 0";
    }
    list.sweep(name, arguments, arguments.len());
    list.sweep_over(name, arguments, 0, 0, &[]);
    list.sweep_over(name, &[arguments, &[0]].concat(), 0, 4, &[]);
}

fn read_questions(list: &mut List, random: &mut Random) {
    for background in [
        [0x00, 0x00, 0x00],
        [0x01, 0x3F, 0x04],
        [0x0E, 0x62, 0x84],
        [0x0F, 0xBF, 0x4F],
    ] {
        list.each_byte("ghj_set_access", &background);
    }
    for length in 0..=6 {
        any_length(list, random, length);
    }
    for _ in 0..300 {
        read_and_written(list, &near(random));
    }
    for second in 0..=u8::MAX {
        list.sweep("ghj_set_access", &[0x01, second, 0], 2);
    }
}

fn read_and_written(list: &mut List, request: &[u8]) {
    list.one("ghj_set_access", request);
    list.one("set_written", request);
}

/// Some with the bytes of a command, or what fits of them, at one of the ends.
fn any_length(list: &mut List, random: &mut Random, length: usize) {
    let first = [0x01, 0x3F, 0x04, 0x00, 0x00, 0x00];
    let last = [0x00, 0x00, 0x00, 0x01, 0x3F, 0x04];
    let twice = [0x0E, 0x62, 0x84, 0x0E, 0x62, 0x84];
    read_and_written(list, &vec![0x00; length]);
    read_and_written(list, &vec![0xFF; length]);
    read_and_written(list, &first[..length]);
    read_and_written(list, &last[6 - length..]);
    read_and_written(list, &twice[..length]);
    for _ in 0..3 {
        let request: Vec<u8> = (0..length).map(|_| below(random, 256)).collect();
        read_and_written(list, &request);
    }
}

/// The bytes of a command, if the channel is one; in every second case with one
/// bit changed.
fn near(random: &mut Random) -> [u8; 3] {
    let mut request = [
        below(random, 16),
        below(random, 64) + 64 * below(random, 3),
        below(random, 16) + 64 * below(random, 3),
    ];
    let [place, bit] = [6, 8].map(|most| below(random, most));
    if let Some(byte) = request.get_mut(usize::from(place)) {
        *byte ^= 1 << bit;
    }
    request
}

fn below(random: &mut Random, most: usize) -> u8 {
    (random.next() % most) as u8
}

fn request_questions(list: &mut List, random: &mut Random) {
    // Every channel, mode and limit, also where a pair or the channel is refused.
    for (place, background) in [
        (0, [0x00, 1, 2, 0x02, 0, 1, 0, 0x04]),
        (0, [0x00, 0, 3, 0x02, 0, 0, 0, 0x04]),
        (3, [0x01, 0, 0, 0x00, 1, 1, 1, 0x0F]),
        (3, [0x0E, 2, 1, 0x00, 0, 0, 1, 0x05]),
        (7, [0x00, 1, 0, 0x07, 1, 1, 0, 0x00]),
        (7, [0x0D, 0, 2, 0x00, 0, 0, 0, 0x00]),
    ] {
        list.sweep("ghj_set_access_request", &background, place);
    }
    for pairs in all_pairs() {
        ask(
            list,
            "ghj_set_access_request",
            &[&[0x0B], &pairs, &RECORDS[1]],
        );
        ask(
            list,
            "ghj_set_access_request",
            &[&[0x0C], &pairs, &RECORDS[1]],
        );
    }
    for number in 0..64 {
        let start = [0x0F, 1, 1, 0x06];
        ask(
            list,
            "ghj_set_access_request",
            &[&start, &flags(number), &[0x0A]],
        );
    }
    for _ in 0..300 {
        let start = [17, 4, 4].map(|most| below(random, most));
        ask(list, "ghj_set_access_request", &[&start, &record(random)]);
    }
}

fn ask(list: &mut List, name: &str, parts: &[&[u8]]) {
    list.one(name, &parts.concat());
}

fn all_pairs() -> impl Iterator<Item = [u8; 2]> {
    let both = |mode_pair| PAIRS.map(|limit_pair| [mode_pair, limit_pair]);
    PAIRS.into_iter().flat_map(both)
}

/// All that there are, by a number below 64.
fn flags(number: usize) -> [u8; 3] {
    [16, 4, 1].map(|weight| FLAGS[number / weight % 4])
}

/// Rarely with a mode or a limit that is refused.
fn record(random: &mut Random) -> [u8; 5] {
    let [alerting, per_message, user_level] = flags(random.next());
    let [mode, limit] = [33, 65].map(|most| below(random, most));
    let mode = if mode == 32 { 8 } else { mode % 8 };
    let limit = if limit == 64 { 16 } else { limit % 16 };
    [mode, alerting, per_message, user_level, limit]
}

fn apply_questions(list: &mut List, random: &mut Random) {
    for pairs in all_pairs() {
        for number in 0..24 {
            let (own, before) = (RECORDS[number % 6], BEFORE[number / 6]);
            ask(list, "ghj_set_access_apply", &[&pairs, &own, &before]);
        }
    }
    for second in 0..=u8::MAX {
        list.sweep("set_applied", &applied(second), 12);
    }
    // Mode and limit of the command, then those of the settings.
    for (place, pairs) in [
        (2, [0, 1]),
        (2, [1, 0]),
        (6, [2, 0]),
        (6, [0, 2]),
        (7, [2, 1]),
        (11, [1, 2]),
        (12, [1, 0]),
        (16, [0, 1]),
    ] {
        let background = [&pairs[..], &RECORDS[1], &BEFORE[1]].concat();
        list.sweep("ghj_set_access_apply", &background, place);
    }
    // The settings' flags, of both kinds, left and set.
    for number in 0..64 {
        let [a, b, c] = flags(number);
        let [d, e, f] = flags(63 - number);
        let before = [0x02, a, b, c, 0x04, 0x03, d, e, f, 0x02];
        for pairs in [[0, 1], [1, 2], [2, 0]] {
            ask(
                list,
                "ghj_set_access_apply",
                &[&pairs, &RECORDS[3], &before],
            );
        }
    }
    for _ in 0..500 {
        let pairs = [4, 4].map(|most| below(random, most));
        let before = [256; 10].map(|most| below(random, most));
        ask(
            list,
            "ghj_set_access_apply",
            &[&pairs, &record(random), &before],
        );
    }
}

/// Settings, and a request whose third byte is clear.
fn applied(second: u8) -> Vec<u8> {
    [&BEFORE[1][..], &[0x01, second, 0x00]].concat()
}

/// Fewer and more arguments than the function takes.
fn wrong_lengths(list: &mut List, name: &str, right: usize) {
    for length in (0..right).chain(right + 1..right + 4) {
        list.one(name, &vec![0x01; length]);
        list.one(name, &vec![0x0C; length]);
    }
}
