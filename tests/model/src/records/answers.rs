//! What is answered to the questions on records with tags.

use super::{read, step, write, Record, BAD_RECORD, NO_FORM};
use replay_form::{number, refused, refused_with, written, Row, Said};

#[rustfmt::skip]
pub const ROWS: [Row; 4] = [
    Row { number: 0x85, name: "ghj_tagged_step", room: |_| 34 },
    Row { number: 0x86, name: "ghj_tagged_numbers", room: |n| n / 3 + 2 },
    Row { number: 0x87, name: "ghj_tagged_listing", room: |n| n / 3 * 5 + 2 },
    Row { number: 0x88, name: "ghj_tagged_write", room: |n| n },
];

pub fn answer(name: &str, data: &[u8]) -> Option<Said> {
    let said = match (name, data) {
        ("ghj_tagged_step", &[low, high, ref list @ ..]) => {
            stepped(list, u16::from_le_bytes([low, high]).into())
        }
        ("ghj_tagged_numbers", list) => whole(list, |record| vec![record.number]),
        ("ghj_tagged_listing", list) => whole(list, |record| record.listed().to_vec()),
        (
            "ghj_tagged_write",
            &[owner, a, b, c, d, number, authentication, count, ref rest @ ..],
        ) => {
            let (integrity, confidentiality) = rest.split_at_checked(count.into())?;
            let vendor = match (owner, u32::from_le_bytes([a, b, c, d])) {
                (0, 0) => None,
                (1, vendor) => Some(vendor),
                _ => return Some(refused(NO_FORM)),
            };
            let bytes = write(vendor, number, authentication, integrity, confidentiality);
            bytes.map_or_else(refused, written)
        }
        _ => return None,
    };
    Some(said)
}

fn bad_record(place: usize) -> Said {
    refused_with(BAD_RECORD, place as u64)
}

fn stepped(list: &[u8], position: usize) -> Said {
    match step(list, position) {
        Ok(Some(record)) => written(laid(&record)),
        Ok(None) => number(0),
        Err(place) => bad_record(place),
    }
}

/// As it is listed, then the authentication and two zeros, then the three
/// places.
fn laid(record: &Record) -> Vec<u8> {
    let mut bytes = record.listed().to_vec();
    bytes.extend([record.authentication, 0, 0]);
    for place in [record.integrity, record.confidentiality, record.end] {
        bytes.extend((place as u64).to_le_bytes());
    }
    bytes
}

/// Of all records, if the list is a sequence of them.
fn whole(list: &[u8], said: impl Fn(&Record) -> Vec<u8>) -> Said {
    let reading = read(list);
    match reading.refused {
        Some(place) => bad_record(place),
        None => written(reading.records.iter().flat_map(said).collect::<Vec<u8>>()),
    }
}
