//! The list of questions on records with tags.

use super::write;
use crate::history::Random;
use replay_form::List;

/// A start of each kind, a byte with each tag, and what may stand in a number
/// alone.
const LETTERS: [u8; 7] = [0xC0, 0xC1, 0x03, 0x41, 0x81, 0x00, 0xC2];

/// Short lists, the empty one among them: whole, broken off or spoilt.
const EXAMPLES: [&[u8]; 12] = [
    &[],
    &[0xC0],
    &[0xC0, 0x03],
    &[0xC0, 0x03, 0x41],
    &[0xC0, 0x03, 0x01],
    &[0xC0, 0x03, 0x01, 0x00],
    &[0xC0, 0x03, 0x01, 0x81, 0x41],
    &[0xC0, 0x03, 0x01, 0x41, 0x81],
    &[0xC1, 0x80, 0xF2, 0x1B, 0x00],
    &[0xC1, 0x80, 0xF2, 0x1B, 0x00, 0x01],
    &[0xC1, 0xC0, 0xC1, 0xC2, 0xFF, 0x3F, 0x7F, 0x40, 0xBF, 0x80],
    &[0xC0, 0xC0, 0x00, 0xC1, 0xC1, 0xC0, 0xC0, 0xC0, 0x00, 0xC2],
];

/// Records of both kinds, with several numbers of a kind and with none.
const MIXED: [u8; 19] = [
    0xC0, 0x03, 0x01, 0x41, 0x81, 0xC1, 0x80, 0xF2, 0x1B, 0x00, 0x02, 0x42, 0x43, 0x81, 0x82, 0xC0,
    0x11, 0x03, 0x84,
];

/// Numbers around those that six bits hold.
const NUMBERS: [u8; 10] = [0, 1, 62, 63, 64, 65, 127, 128, 192, 255];

const VENDORS: [u32; 12] = [
    0,
    1,
    0xFF,
    0x100,
    0xFFFF,
    0x1_0000,
    0xFF_FFFF,
    0x100_0000,
    0x100_0001,
    0x200_0000,
    0x8000_0000,
    0xFFFF_FFFF,
];

/// Malformed, or with too few arguments.
const BAD: [(&str, &str); 15] = [
    ("ghj_tagged_step", ""),
    ("ghj_tagged_step", " 00"),
    ("ghj_tagged_step", " 00 0"),
    ("ghj_tagged_step", "  00 00 C0 03 01"),
    ("ghj_tagged_step", " 00 00 C0 03 0G"),
    ("ghj_tagged_numbers", " C"),
    ("ghj_tagged_numbers", "  C0 03 01"),
    ("ghj_tagged_numbers", " C0 03 01 "),
    ("ghj_tagged_listing", " C0 03 0"),
    ("ghj_tagged_listing", "  C0 03 01"),
    ("ghj_tagged_write", ""),
    ("ghj_tagged_write", " 00"),
    ("ghj_tagged_write", " 00 00 00 00 00 03 01"),
    ("ghj_tagged_write", " 00 00 00 00 00 03 01 01"),
    ("ghj_tagged_write", " 00 00 00 00 00 03 01 03 01 01"),
];

/// No such functions.
const NONE: [&str; 5] = [
    " 8F 00 00",
    " 8E 00 00 C0 03 01",
    " 8F 00 00 00 00 C0 03 01",
    " 8F 03 00 C0 03 01",
    " 90 07 00 C0 03 01",
];

pub fn questions(list: &mut List) {
    let mut random = Random::new(b"Records with tags");
    list.heading("records with tags, examples");
    for example in EXAMPLES {
        whole_and_steps(list, example);
    }
    list.heading("records with tags, all of three letters");
    letter_questions(list);
    list.heading("records with tags, one list and what is near it");
    for length in 0..MIXED.len() {
        whole(list, &MIXED[..length]);
    }
    whole_and_steps(list, &MIXED);
    // Where the authentication byte stands, and an integrity byte.
    for place in [2, 3] {
        list.sweep("ghj_tagged_numbers", &MIXED, place);
    }
    list.heading("records with tags, random and damaged");
    for _ in 0..100 {
        random_questions(list, &mut random);
    }
    list.heading("records with tags, long lists");
    long_questions(list);
    list.heading("records with tags, written");
    write_questions(list, &mut random);
    list.heading("records with tags, too little room, and just enough");
    list.scarce("ghj_tagged_step", &[&[0, 0], &MIXED[..]].concat(), 32);
    list.scarce("ghj_tagged_numbers", &MIXED, 3);
    list.scarce("ghj_tagged_listing", &MIXED, 15);
    list.scarce("ghj_tagged_write", &[0, 0, 0, 0, 0, 3, 1, 1, 1, 1], 5);
    list.heading("records with tags, bad questions");
    for (name, text) in BAD {
        list.text(name, text);
    }
    for line in NONE {
        list.line(line);
    }
}

fn step(list: &mut List, records: &[u8], position: usize) {
    let position = (position as u16).to_le_bytes();
    list.one("ghj_tagged_step", &[&position, records].concat());
}

fn whole(list: &mut List, records: &[u8]) {
    list.one("ghj_tagged_numbers", records);
    list.one("ghj_tagged_listing", records);
}

/// Steps at every position, at the end and past it.
fn whole_and_steps(list: &mut List, records: &[u8]) {
    whole(list, records);
    for position in 0..=records.len() + 2 {
        step(list, records, position);
    }
    for position in [0xFF, 0x100, 0xFFFF] {
        step(list, records, position);
    }
}

/// All strings of letters, read whole and by a step at 0.
fn letter_questions(list: &mut List) {
    list.one("ghj_tagged_numbers", &[]);
    step(list, &[], 0);
    for length in 1..=3 {
        let records = vec![0; length.into()];
        list.sweep_over("ghj_tagged_numbers", &records, 0, length, &LETTERS);
        let step = [&[0, 0], &records[..]].concat();
        list.sweep_over("ghj_tagged_step", &step, 2, length, &LETTERS);
    }
}

fn below(random: &mut Random, most: usize) -> u8 {
    (random.next() % most) as u8
}

/// Up to three, most often one.
fn algorithms(random: &mut Random) -> Vec<u8> {
    let count = [1, 1, 1, 0, 2, 3][random.next() % 6];
    (0..count).map(|_| below(random, 64)).collect()
}

/// Every third a vendor's own, its number often one that is a start.
fn record(random: &mut Random) -> Vec<u8> {
    let [number, low, middle, high] = [256; 4].map(|most| below(random, most));
    let number = [0xC0, 0xC1, number, number, number][random.next() % 5];
    let vendor = u32::from_le_bytes([low, middle, high, 0]);
    let vendor = (random.next() % 3 == 0).then_some(vendor);
    let authentication = below(random, 64);
    let [integrity, confidentiality] = [algorithms(random), algorithms(random)];
    write(vendor, number, authentication, &integrity, &confidentiality).expect("its numbers fit")
}

/// A sequence, read at a record's start and anywhere, then two damaged ones.
fn random_questions(list: &mut List, random: &mut Random) {
    let records: Vec<Vec<u8>> = (0..random.next() % 8 + 1).map(|_| record(random)).collect();
    let start = records[..random.next() % records.len()].concat().len();
    let records = records.concat();
    whole(list, &records);
    step(list, &records, start);
    step(list, &records, random.next() % (records.len() + 2));
    for _ in 0..2 {
        let damaged = damaged(&records, random);
        list.one("ghj_tagged_numbers", &damaged);
        step(list, &damaged, random.next() % (damaged.len() + 1));
    }
}

/// A byte changed, dropped or put in, or the end cut off.
fn damaged(records: &[u8], random: &mut Random) -> Vec<u8> {
    let mut records = records.to_vec();
    let place = random.next() % records.len();
    let any = below(random, 256);
    let byte = [0x00, 0x41, 0x81, 0xC0, 0xC1, 0xC2, any, any][random.next() % 8];
    match random.next() % 4 {
        0 => records[place] = byte,
        1 => drop(records.remove(place)),
        2 => records.insert(place, byte),
        _ => records.truncate(place),
    }
    records
}

/// As long as a question can be, so that places have more than a byte.
fn long_questions(list: &mut List) {
    let standard = [0xC0, 0x03, 0x01, 0x41, 0x81].repeat(204);
    let least = [0xC0, 0x11, 0x03].repeat(341);
    let own = [0xC1, 0x80, 0xF2, 0x1B, 0x00, 0x03, 0x44].repeat(146);
    let one = [&[0xC0, 0x03, 0x01], &[0x7F; 600][..], &[0xBF; 419]].concat();
    for records in [&standard, &least, &own, &one] {
        whole(list, records);
        let unended = [&records[..], &[0xC0]].concat();
        let refused = [&records[..], &[0x00]].concat();
        whole(list, &unended);
        whole(list, &refused);
        let mut changed = records.clone();
        changed[700] = 0xC2;
        whole(list, &changed);
    }
    for position in [0, 255, 1010, 1015, 1020, 1021] {
        step(list, &standard, position);
        step(list, &one, position);
    }
}

fn write_question(
    list: &mut List,
    [owner, number, authentication]: [u8; 3],
    vendor: u32,
    integrity: &[u8],
    confidentiality: &[u8],
) {
    let vendor = vendor.to_le_bytes();
    let rest = [number, authentication, integrity.len() as u8];
    let parts = [&[owner], &vendor[..], &rest, integrity, confidentiality];
    list.one("ghj_tagged_write", &parts.concat());
}

fn write_questions(list: &mut List, random: &mut Random) {
    for (owner, vendor) in [(0, 0), (1, 7154)] {
        for number in NUMBERS {
            let start = [owner, number, 1];
            write_question(list, start, vendor, &[1], &[1]);
            let start = [owner, 3, number];
            write_question(list, start, vendor, &[1], &[1]);
            let start = [owner, 3, 1];
            write_question(list, start, vendor, &[number], &[1]);
            write_question(list, start, vendor, &[1, number], &[]);
            write_question(list, start, vendor, &[1], &[number]);
            write_question(list, start, vendor, &[], &[2, 3, number]);
        }
        for integrity in 0..4 {
            for confidentiality in 0..4 {
                let numbers = [4, 63, 0];
                write_question(
                    list,
                    [owner, 0xC0, 63],
                    vendor,
                    &numbers[..integrity],
                    &numbers[..confidentiality],
                );
            }
        }
    }
    for vendor in VENDORS {
        write_question(list, [1, 0x80, 0], vendor, &[], &[]);
        // Where a number does not fit either.
        write_question(list, [1, 0x80, 64], vendor, &[1], &[1]);
    }
    // No such owners.
    for (owner, vendor) in [(0, 1), (0, 0x100_0000), (2, 0), (0xFF, 7154)] {
        write_question(list, [owner, 3, 1], vendor, &[1], &[1]);
    }
    for _ in 0..100 {
        let [owner, number] = [2, 256].map(|most| below(random, most));
        let [low, middle, high] = [256; 3].map(|most| below(random, most));
        let vendor = u32::from(owner) * u32::from_le_bytes([low, middle, high, 0]);
        // Rarely with a number that does not fit.
        let authentication = below(random, 66);
        let [mut integrity, confidentiality] = [algorithms(random), algorithms(random)];
        if random.next() % 16 == 0 {
            integrity.push(64 + below(random, 192));
        }
        let start = [owner, number, authentication];
        write_question(list, start, vendor, &integrity, &confidentiality);
    }
}
