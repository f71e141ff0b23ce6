//! What the crate does not have, in plain Rust, as one would write it: a collector with the same state, and the same test of it
//! at every entry; the same for a channel; and the strict reading of a list of suites.

use crate::called::{placed, refused, NO_ROOM};

pub const PART: usize = 16;
pub const CAPACITY: usize = 1024;
pub const PARTS: usize = 64;
pub const KNOWN: usize = 2;

#[derive(Clone, Copy, PartialEq)]
#[repr(C)]
pub struct Plain {
    pub bytes: [u8; CAPACITY],
    pub marks: [u8; PARTS],
    pub known: [u8; KNOWN],
}

impl Plain {
    pub const FRESH: Self = Self {
        bytes: [0; CAPACITY],
        marks: [0; PARTS],
        known: [0; KNOWN],
    };

    /// The least length of a list that has every heard part.
    fn least(&self) -> usize {
        let ends = self.marks.iter().enumerate();
        ends.map(|(i, &mark)| {
            if mark > 1 {
                PART * i + usize::from(mark) - 1
            } else {
                0
            }
        })
        .max()
        .unwrap_or(0)
    }

    /// The lowest unheard index, and whether the list is complete.
    fn found(&self) -> [u8; KNOWN] {
        let lowest = self.marks.iter().position(|&mark| mark == 0);
        let lowest = lowest.unwrap_or(PARTS);
        let ended = lowest > 0 && usize::from(self.marks[lowest - 1]) <= PART;
        [lowest as u8, u8::from(lowest == PARTS || ended)]
    }

    fn well_formed(&self) -> bool {
        let n = self.least();
        let marks = self.marks.iter().enumerate().all(|(i, &mark)| {
            mark == 0 || usize::from(mark) == 1 + PART.min(n.saturating_sub(PART * i))
        });
        marks
            && self
                .bytes
                .chunks_exact(PART)
                .zip(&self.marks)
                .all(|(part, &mark)| {
                    let heard = usize::from(mark).saturating_sub(1).min(PART);
                    part[heard..].iter().all(|&byte| byte == 0)
                })
            && self.known == self.found()
    }

    /// 0, or the refusal's number.
    #[inline(never)]
    pub fn answer(&mut self, index: u8, part: &[u8]) -> u8 {
        if !self.well_formed() {
            return 9;
        }
        self.take(index, part)
    }

    /// Behind the test.
    #[inline(always)]
    fn take(&mut self, index: u8, part: &[u8]) -> u8 {
        let i = usize::from(index);
        if i >= PARTS {
            return 7;
        }
        if part.len() > PART {
            return 2;
        }
        let mark = part.len() as u8 + 1;
        let place = PART * i;
        if self.marks[i] != 0 {
            let same = self.marks[i] == mark && self.bytes[place..place + part.len()] == *part;
            return if same { 0 } else { 12 };
        }
        let n = self.least();
        self.marks[i] = mark;
        let end = if mark > 1 { place + part.len() } else { 0 };
        let most = n.max(end);
        let fits = self.marks.iter().enumerate().all(|(i, &mark)| {
            mark == 0 || usize::from(mark) == 1 + PART.min(most.saturating_sub(PART * i))
        });
        if !fits {
            self.marks[i] = 0;
            return 12;
        }
        self.bytes[place..place + part.len()].copy_from_slice(part);
        self.known = self.found();
        0
    }

    /// Standing, with the test of the whole state before it; none where that fails.
    #[inline(never)]
    pub fn tested_standing(&self) -> Option<Result<usize, u8>> {
        self.well_formed().then(|| self.standing())
    }

    /// The length of the list, or the lowest unheard index: by what is stored.
    pub fn standing(&self) -> Result<usize, u8> {
        match self.known {
            [_, 1] => Ok(self.least()),
            [lowest, _] => Err(lowest),
        }
    }
}

/// A collector for a channel: the number that it was made for, one more than that of the channel that answers come from, 0 while
/// none is taken, and the collector.
#[derive(Clone, Copy, PartialEq)]
#[repr(C)]
pub struct PlainChannel {
    pub channel: u8,
    pub from: u8,
    pub heard: Plain,
}

const CURRENT: u8 = 0xE;

fn is_channel(number: u8) -> bool {
    !matches!(number, 0xC | 0xD | 0x10..)
}

impl PlainChannel {
    pub const fn made_for(channel: u8) -> Self {
        Self {
            channel,
            from: if channel == CURRENT { 0 } else { channel + 1 },
            heard: Plain::FRESH,
        }
    }

    fn well_made(&self) -> bool {
        let taken = self
            .from
            .checked_sub(1)
            .filter(|&number| is_channel(number));
        let fits = match self.channel {
            CURRENT if self.heard.marks == [0; PARTS] => self.from == 0,
            CURRENT => taken.is_some(),
            channel => taken == Some(channel),
        };
        fits && self.heard.well_formed()
    }

    /// 0, or the refusal's number.
    #[inline(never)]
    pub fn answer(&mut self, index: u8, response: &[u8]) -> u8 {
        if !self.well_made() {
            return 9;
        }
        if usize::from(index) >= PARTS {
            return 7;
        }
        let Some((first, part)) = response.split_first() else {
            return 1;
        };
        if part.len() > PART {
            return 2;
        }
        let number = first & 0x0F;
        if !is_channel(number) {
            return 6;
        }
        if self.from != 0 && self.from - 1 != number {
            return 15;
        }
        let verdict = self.heard.take(index, part);
        if verdict == 0 {
            self.from = number + 1;
        }
        verdict
    }
}

/// A record of a list of suites, read by its tags. Its integrity bytes lie from `integrity` up to `confidentiality`, its
/// confidentiality bytes from there up to `end`.
pub struct Record {
    number: u8,
    vendor: Option<u32>,
    authentication: u8,
    integrity: usize,
    confidentiality: usize,
    end: usize,
}

/// A record's length as include/ghjalvestru.h has it, and that of its entry in the listing.
pub const RECORD: usize = 32;
const ENTRY: usize = 5;

impl Record {
    /// The record at a position, or the place of the first byte that no record has there.
    fn read(list: &[u8], position: usize) -> Result<Self, usize> {
        let byte = |at: usize| list.get(at).copied().ok_or(list.len());
        let (vendor, at) = match byte(position)? {
            0xC0 => (None, position + 2),
            0xC1 => {
                let bytes = [
                    byte(position + 2)?,
                    byte(position + 3)?,
                    byte(position + 4)?,
                    0,
                ];
                (Some(u32::from_le_bytes(bytes)), position + 5)
            }
            _ => return Err(position),
        };
        let number = byte(position + 1)?;
        let authentication = byte(at)?;
        if authentication >> 6 != 0 {
            return Err(at);
        }
        let integrity = at + 1;
        let confidentiality = reach(list, 1, integrity);
        let end = reach(list, 2, confidentiality);
        Ok(Self {
            number,
            vendor,
            authentication,
            integrity,
            confidentiality,
            end,
        })
    }

    fn bytes(&self) -> [u8; RECORD] {
        let mut record = [0; RECORD];
        record[0] = self.number;
        record[1] = u8::from(self.vendor.is_some());
        record[2..5].copy_from_slice(&self.vendor.unwrap_or(0).to_le_bytes()[..3]);
        record[5] = self.authentication;
        record[8..16].copy_from_slice(&(self.integrity as u64).to_le_bytes());
        record[16..24].copy_from_slice(&(self.confidentiality as u64).to_le_bytes());
        record[24..].copy_from_slice(&(self.end as u64).to_le_bytes());
        record
    }
}

/// Where the bytes with a tag end that begin at a place.
fn reach(list: &[u8], tag: u8, at: usize) -> usize {
    let tagged = list[at..].iter().take_while(|&&byte| byte >> 6 == tag);
    at + tagged.count()
}

/// A list's records; the last may be a refusal.
pub fn records(list: &[u8]) -> impl Iterator<Item = Result<Record, usize>> + '_ {
    let mut position = 0;
    std::iter::from_fn(move || {
        if position >= list.len() {
            return None;
        }
        let record = Record::read(list, position);
        position = record.as_ref().map_or(list.len(), |record| record.end);
        Some(record)
    })
}

fn bad_record(place: usize) -> u64 {
    refused(16 | (place as u64).min((1 << 55) - 1) << 8)
}

/// As the port: the record's bytes, nothing at the end.
#[inline(always)]
pub fn strict_step(list: &[u8], position: usize, out: &mut [u8]) -> u64 {
    if position >= list.len() {
        return 0;
    }
    match Record::read(list, position) {
        Ok(record) => placed(&record.bytes(), out),
        Err(place) => bad_record(place),
    }
}

/// How many records a list has, or the number of its refusal.
fn count(list: &[u8]) -> Result<usize, u64> {
    let mut count = 0;
    for record in records(list) {
        record.map_err(bad_record)?;
        count += 1;
    }
    Ok(count)
}

/// As the port: nothing is written where one record is bad or one number has no room.
#[inline(always)]
pub fn strict_numbers(list: &[u8], out: &mut [u8]) -> u64 {
    let count = match count(list) {
        Ok(count) => count,
        Err(refusal) => return refusal,
    };
    let Some(out) = out.get_mut(..count) else {
        return refused(NO_ROOM);
    };
    for (place, record) in out.iter_mut().zip(records(list).flatten()) {
        *place = record.number;
    }
    count as u64
}

/// The same with whose suite each is: a record's first five bytes.
#[inline(always)]
pub fn strict_listing(list: &[u8], out: &mut [u8]) -> u64 {
    let count = match count(list) {
        Ok(count) => count,
        Err(refusal) => return refusal,
    };
    let Some(out) = out.get_mut(..ENTRY * count) else {
        return refused(NO_ROOM);
    };
    for (place, record) in out.chunks_exact_mut(ENTRY).zip(records(list).flatten()) {
        place.copy_from_slice(&record.bytes()[..ENTRY]);
    }
    (ENTRY * count) as u64
}
