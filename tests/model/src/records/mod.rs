//! Cipher suite records with their tags, made from the request's words and from
//! nothing of the port: a reader that takes one byte after the other and knows
//! only what may come next. Where it stops is the place of the refusal.

mod answers;
mod questions;

pub use answers::{answer, ROWS};
pub use questions::questions;

pub const NO_FORM: u8 = 9;
pub const BAD_RECORD: u8 = 16;

/// What the last byte was.
#[derive(Clone, Copy, PartialEq)]
enum Last {
    /// There is none yet.
    Nothing,
    /// C0h.
    Standard,
    StandardNumber,
    /// C1h.
    Own,
    OwnNumber,
    LowVendor,
    MiddleVendor,
    HighVendor,
    Authentication,
    Integrity,
    Confidentiality,
}

use Last::*;

impl Last {
    /// What the next byte is then, if it may be there at all.
    fn then(self, byte: u8) -> Option<Self> {
        Some(match (self, byte) {
            (Standard, _) => StandardNumber,
            (Own, _) => OwnNumber,
            (OwnNumber, _) => LowVendor,
            (LowVendor, _) => MiddleVendor,
            (MiddleVendor, _) => HighVendor,
            (StandardNumber | HighVendor, 0x00..=0x3F) => Authentication,
            (Authentication | Integrity, 0x40..=0x7F) => Integrity,
            (Authentication | Integrity | Confidentiality, 0x80..=0xBF) => Confidentiality,
            (_, 0xC0) if self.may_be_the_end() => Standard,
            (_, 0xC1) if self.may_be_the_end() => Own,
            _ => return None,
        })
    }

    /// Of the list; so there another record may begin.
    fn may_be_the_end(self) -> bool {
        matches!(self, Nothing | Authentication | Integrity | Confidentiality)
    }
}

/// A record and where it lies.
#[derive(Clone, Copy, Debug, Default, PartialEq)]
pub struct Record {
    /// None: a standard suite.
    pub vendor: Option<u32>,
    pub number: u8,
    pub authentication: u8,
    pub start: usize,
    /// Its integrity bytes begin here, its confidentiality bytes there, and it
    /// ends at the last.
    pub integrity: usize,
    pub confidentiality: usize,
    pub end: usize,
}

impl Record {
    fn take(&mut self, byte: u8, what: Last, place: usize) {
        let vendor = self.vendor.unwrap_or(0);
        match what {
            Nothing => {}
            Standard => self.start = place,
            Own => (self.start, self.vendor) = (place, Some(0)),
            StandardNumber | OwnNumber => self.number = byte,
            LowVendor => self.vendor = Some(vendor + u32::from(byte)),
            MiddleVendor => self.vendor = Some(vendor + 256 * u32::from(byte)),
            HighVendor => self.vendor = Some(vendor + 65_536 * u32::from(byte)),
            Authentication => {
                self.authentication = byte;
                self.integrity = place + 1;
                self.confidentiality = place + 1;
            }
            Integrity => self.confidentiality = place + 1,
            Confidentiality => {}
        }
        self.end = place + 1;
    }

    /// In the listing of a list: the number, then 0 and zeros or 1 and the
    /// vendor's number, low byte first.
    pub fn listed(&self) -> [u8; 5] {
        let own = u8::from(self.vendor.is_some());
        let [low, middle, high, _] = self.vendor.unwrap_or(0).to_le_bytes();
        [self.number, own, low, middle, high]
    }

    /// The numbers of its integrity and of its confidentiality bytes.
    pub fn algorithms(&self, list: &[u8]) -> [Vec<u8>; 2] {
        [
            &list[self.integrity..self.confidentiality],
            &list[self.confidentiality..self.end],
        ]
        .map(|bytes| bytes.iter().map(|byte| byte % 64).collect())
    }
}

/// What there is to say of a list.
#[derive(Debug, PartialEq)]
pub struct Reading {
    /// The whole ones, all that stand before the refusal if there is one.
    pub records: Vec<Record>,
    /// The place.
    pub refused: Option<usize>,
}

pub fn read(list: &[u8]) -> Reading {
    let mut records: Vec<Record> = Vec::new();
    let mut last = Nothing;
    let mut refused = None;
    for (place, &byte) in list.iter().enumerate() {
        let Some(what) = last.then(byte) else {
            refused = Some(place);
            break;
        };
        if matches!(what, Standard | Own) {
            records.push(Record::default());
        }
        if let Some(record) = records.last_mut() {
            record.take(byte, what, place);
        }
        last = what;
    }
    if !last.may_be_the_end() {
        records.pop();
        refused = refused.or(Some(list.len()));
    }
    Reading { records, refused }
}

/// The record that begins at a position, none at the end or past it, or the
/// place of the refusal.
pub fn step(list: &[u8], position: usize) -> Result<Option<Record>, usize> {
    let rest = list.get(position..).unwrap_or_default();
    let Reading { records, refused } = read(rest);
    if let Some(&record) = records.first() {
        return Ok(Some(Record {
            start: position + record.start,
            integrity: position + record.integrity,
            confidentiality: position + record.confidentiality,
            end: position + record.end,
            ..record
        }));
    }
    match refused {
        Some(place) => Err(position + place),
        None => Ok(None),
    }
}

/// The bytes of a record. The lists are its algorithms' numbers.
pub fn write(
    vendor: Option<u32>,
    number: u8,
    authentication: u8,
    integrity: &[u8],
    confidentiality: &[u8],
) -> Result<Vec<u8>, u8> {
    let mut bytes = match vendor.map(u32::to_be_bytes) {
        None => vec![0xC0, number],
        Some([0, high, middle, low]) => vec![0xC1, number, low, middle, high],
        Some(_) => return Err(NO_FORM),
    };
    for (top, numbers) in [
        (0x00, &[authentication][..]),
        (0x40, integrity),
        (0x80, confidentiality),
    ] {
        if numbers.iter().any(|&number| number >= 64) {
            return Err(NO_FORM);
        }
        bytes.extend(numbers.iter().map(|number| top + number));
    }
    Ok(bytes)
}

#[cfg(test)]
mod tests {
    use super::*;
    use std::collections::HashSet;

    const LETTERS: [u8; 7] = [0xC0, 0xC1, 0x03, 0x41, 0x81, 0x00, 0xC2];

    /// Strings of letters, the shortest first.
    fn strings(longest: usize) -> Vec<Vec<u8>> {
        let mut all = vec![vec![]];
        let mut from = 0;
        for _ in 0..longest {
            let until = all.len();
            for place in from..until {
                for letter in LETTERS {
                    all.push([&all[place][..], &[letter]].concat());
                }
            }
            from = until;
        }
        all
    }

    fn with_top(top: u8) -> impl Iterator<Item = u8> + Clone {
        LETTERS.into_iter().filter(move |letter| letter >> 6 == top)
    }

    /// "C0h and a suite number, or C1h, a number and a three-byte vendor number,
    /// low first; then one authentication byte with top bits 00, any integrity
    /// bytes with 01, any confidentiality bytes with 10": all of these letters,
    /// the shortest first.
    fn records(longest: usize) -> Vec<Vec<u8>> {
        let starts = strings(4).into_iter().filter_map(|rest| match rest.len() {
            1 => Some([&[0xC0], &rest[..]].concat()),
            4 => Some([&[0xC1], &rest[..]].concat()),
            _ => None,
        });
        let mut all: Vec<Vec<u8>> = starts
            .flat_map(|start| with_top(0).map(move |byte| [&start[..], &[byte]].concat()))
            .collect();
        for top in [1, 2] {
            let mut place = 0;
            while place < all.len() {
                for byte in with_top(top) {
                    if all[place].len() < longest {
                        all.push([&all[place][..], &[byte]].concat());
                    }
                }
                place += 1;
            }
        }
        all.retain(|record| record.len() <= longest);
        all.sort_by_key(Vec::len);
        all
    }

    /// "The sequences of such records", up to a length.
    fn sequences(longest: usize) -> HashSet<Vec<u8>> {
        let records = records(longest);
        let mut all = HashSet::from([vec![]]);
        let mut new = vec![vec![]];
        while let Some(before) = new.pop() {
            for record in &records {
                if before.len() + record.len() > longest {
                    break;
                }
                let sequence = [&before[..], record].concat();
                // "each read one way"
                assert!(all.insert(sequence.clone()));
                new.push(sequence);
            }
        }
        all
    }

    /// "Exactly the sequences of such records are accepted"; "the place of the
    /// first byte from which no continuation gives a legal sequence, or the
    /// length if only the end is missing", word for word and slowly. Five bytes
    /// more are enough for any continuation.
    #[test]
    fn the_search_says_the_same() {
        const LONGEST: usize = 5;
        let legal = sequences(LONGEST + 5);
        let mut begins = HashSet::new();
        for sequence in &legal {
            for length in 0..=sequence.len().min(LONGEST) {
                begins.insert(sequence[..length].to_vec());
            }
        }
        let mut count = 0;
        for list in strings(LONGEST) {
            let Reading { records, refused } = read(&list);
            let fault = (0..list.len()).find(|&place| !begins.contains(&list[..=place]));
            let expected = if legal.contains(&list) {
                None
            } else {
                Some(fault.unwrap_or(list.len()))
            };
            assert_eq!(refused, expected, "{list:02X?}");
            count += usize::from(refused.is_none());

            // What was read before lies side by side, and is written as it was.
            let mut end = 0;
            for record in records {
                let [integrity, confidentiality] = record.algorithms(&list);
                let bytes = write(
                    record.vendor,
                    record.number,
                    record.authentication,
                    &integrity,
                    &confidentiality,
                );
                assert_eq!(record.start, end);
                end = record.end;
                assert_eq!(bytes.as_deref(), Ok(&list[record.start..end]));
            }
            assert!(refused.is_some() || end == list.len());
        }
        let short = legal.iter().filter(|list| list.len() <= LONGEST);
        assert_eq!(count, short.count());
    }

    #[test]
    fn examples() {
        let refused = |list: &[u8]| read(list).refused;
        assert_eq!(refused(&[]), None);
        assert_eq!(refused(&[0xC0]), Some(1));
        assert_eq!(refused(&[0xC0, 0x03, 0x41]), Some(2));
        assert_eq!(refused(&[0xC0, 0x03, 0x01]), None);
        assert_eq!(refused(&[0xC0, 0x03, 0x01, 0x00]), Some(3));
        assert_eq!(refused(&[0xC0, 0x03, 0x01, 0x81, 0x41]), Some(4));
        let list = [
            0xC1, 0x80, 0xF2, 0x1B, 0x05, 0x3F, 0x7F, 0x40, 0x80, 0xC0, 0xC0, 0x00,
        ];
        let own = Record {
            vendor: Some(0x05_1B_F2),
            number: 0x80,
            authentication: 0x3F,
            start: 0,
            integrity: 6,
            confidentiality: 8,
            end: 9,
        };
        let standard = Record {
            vendor: None,
            number: 0xC0,
            authentication: 0,
            start: 9,
            integrity: 12,
            confidentiality: 12,
            end: 12,
        };
        let records = vec![own, standard];
        let refused = None;
        assert_eq!(read(&list), Reading { records, refused });
        assert_eq!(own.algorithms(&list), [vec![63, 0], vec![0]]);
        assert_eq!(step(&list, 0), Ok(Some(own)));
        assert_eq!(step(&list, 9), Ok(Some(standard)));
        assert_eq!(step(&list, 10), Err(12));
        assert_eq!(step(&list, 11), Err(11));
        assert_eq!(step(&list, 12), Ok(None));
        assert_eq!(step(&list, 13), Ok(None));
    }

    /// "9 for a number that needs more than six bits or a vendor number of 2^24
    /// or more".
    #[test]
    fn what_has_no_form() {
        for number in 0..=255 {
            let expected = number < 64;
            assert_eq!(write(None, 0, number, &[], &[]).is_ok(), expected);
            assert_eq!(write(None, 0, 0, &[0, number], &[]).is_ok(), expected);
            assert_eq!(write(None, 0, 0, &[], &[number, 0]).is_ok(), expected);
            assert!(write(None, number, 0, &[], &[]).is_ok());
        }
        let own = |vendor| write(Some(vendor), 0, 0, &[], &[]);
        assert_eq!(own(0), Ok(vec![0xC1, 0, 0, 0, 0, 0]));
        assert_eq!(own(0xFF_FFFE), Ok(vec![0xC1, 0, 0xFE, 0xFF, 0xFF, 0]));
        assert_eq!([own(1 << 24), own(u32::MAX)], [Err(9), Err(9)]);
    }
}
