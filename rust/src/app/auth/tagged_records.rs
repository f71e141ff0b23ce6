//! Cipher suite records with their tags: a list read strictly, by the standard's format, and a record written.
//!
//! A record is C0h and a suite number, or C1h, a number and a vendor's number; then one authentication byte, any integrity
//! bytes, any confidentiality bytes. Exactly the sequences of such records are accepted, the empty one too. The crate
//! ipmi-rs-core knows five-byte records alone; [`ChannelCipherSuites::parse_full_data`] reads as it does. Reference: IPMI 2.0,
//! Table 22-18.
//!
//! [`ChannelCipherSuites::parse_full_data`]: super::ChannelCipherSuites::parse_full_data

use crate::number::{certain, length, record};
use crate::sys::{self, LISTED, TAGGED};
use crate::Error;
use std::iter::FusedIterator;
use std::slice;

/// The most bytes that a record has before its integrity bytes.
const HEAD: usize = 6;

/// Whose suite a record is.
#[derive(Clone, Copy, Debug, PartialEq, Eq, PartialOrd, Ord, Hash)]
pub enum Owner {
    /// The standard's.
    Standard,
    /// A vendor's own; the vendor's number, below 2 to the power of 24.
    Vendor(u32),
}

impl Owner {
    /// From C's two fields: 0, or 1 and the vendor's number, low byte first.
    fn new(own: u8, [low, middle, high]: [u8; 3]) -> Self {
        match own {
            0 => Self::Standard,
            _ => Self::Vendor(u32::from_le_bytes([low, middle, high, 0])),
        }
    }

    /// As C takes them.
    fn parts(self) -> (u8, u32) {
        match self {
            Self::Standard => (0, 0),
            Self::Vendor(vendor) => (1, vendor),
        }
    }
}

/// A record of a lent list, which [`TaggedRecords`] gives.
#[derive(Clone, Copy, Debug, PartialEq, Eq, Hash)]
pub struct TaggedRecord<'a> {
    /// Whose suite it is.
    pub owner: Owner,
    /// The suite's number; any byte.
    pub number: u8,
    /// The number of its authentication algorithm, below 64.
    pub authentication: u8,
    integrity: &'a [u8],
    confidentiality: &'a [u8],
}

impl<'a> TaggedRecord<'a> {
    /// The numbers of its integrity algorithms, each below 64.
    #[must_use]
    pub fn integrity(&self) -> Numbers<'a> {
        Numbers(self.integrity.iter())
    }

    /// The numbers of its confidentiality algorithms, each below 64.
    #[must_use]
    pub fn confidentiality(&self) -> Numbers<'a> {
        Numbers(self.confidentiality.iter())
    }
}

/// The numbers of a record's algorithms, from the bytes of the list.
#[derive(Clone, Debug)]
pub struct Numbers<'a>(slice::Iter<'a, u8>);

impl Iterator for Numbers<'_> {
    type Item = u8;

    fn next(&mut self) -> Option<u8> {
        let byte = slice::from_ref(self.0.next()?);
        let [number] = certain(record(|out| sys::tagged_algorithms(byte, out)));
        Some(number)
    }

    fn size_hint(&self) -> (usize, Option<usize>) {
        self.0.size_hint()
    }
}

impl ExactSizeIterator for Numbers<'_> {}

impl FusedIterator for Numbers<'_> {}

/// The records of a list, a step at a time. A refusal is the last item.
///
/// ```
/// use ghjalvestru::app::auth::{Owner, TaggedRecords};
/// use ghjalvestru::Error;
///
/// let list = [0xC0, 0x03, 0x01, 0x41, 0x81, 0xC1, 0x80, 0xF2, 0x1B, 0x00, 0x03, 0x44, 0x81, 0x82];
/// let mut records = TaggedRecords::new(&list);
/// let standard = records.next().expect("two records")?;
/// assert_eq!((standard.owner, standard.number), (Owner::Standard, 3));
/// let own = records.next().expect("two records")?;
/// assert_eq!((own.owner, own.number), (Owner::Vendor(7154), 0x80));
/// assert!(own.integrity().eq([4]) && own.confidentiality().eq([1, 2]));
/// assert_eq!(records.next(), None);
///
/// // An integrity byte behind a confidentiality byte: refused with its place.
/// let mut records = TaggedRecords::new(&[0xC0, 0x03, 0x01, 0x81, 0x41]);
/// assert!(records.next().is_some_and(|record| record.is_ok()));
/// assert_eq!(records.next(), Some(Err(Error::BadRecord(4))));
/// assert_eq!(records.next(), None);
///
/// // Or all at once.
/// let refused: Result<Vec<_>, Error> = TaggedRecords::new(&[0xC0, 0x03]).collect();
/// assert_eq!(refused, Err(Error::BadRecord(2)));
/// # Ok::<(), Error>(())
/// ```
#[derive(Clone, Debug)]
pub struct TaggedRecords<'a> {
    list: &'a [u8],
    /// Where the next record begins; none behind the last item.
    position: Option<usize>,
}

impl<'a> TaggedRecords<'a> {
    /// Of a whole list.
    #[must_use]
    pub fn new(list: &'a [u8]) -> Self {
        let position = Some(0);
        Self { list, position }
    }

    /// The list's bytes from one of a record's places to another.
    fn between(&self, from: usize, to: usize) -> &'a [u8] {
        certain(self.list.get(from..to).ok_or((from, to)))
    }

    fn step(&mut self, position: usize) -> Result<Option<TaggedRecord<'a>>, Error> {
        let mut out = [0; TAGGED];
        if length(sys::tagged_step(self.list, position, &mut out))? == 0 {
            return Ok(None);
        }
        let [number, own, low, middle, high, authentication, ..] = out;
        let [integrity, confidentiality, end] = [8, 16, 24].map(|at| place(&out[at..at + 8]));
        self.position = Some(end);
        Ok(Some(TaggedRecord {
            owner: Owner::new(own, [low, middle, high]),
            number,
            authentication,
            integrity: self.between(integrity, confidentiality),
            confidentiality: self.between(confidentiality, end),
        }))
    }
}

/// From its bytes, low first.
fn place(bytes: &[u8]) -> usize {
    let above = |number, byte: &u8| number << 8 | usize::from(*byte);
    bytes.iter().rev().fold(0, above)
}

impl<'a> Iterator for TaggedRecords<'a> {
    type Item = Result<TaggedRecord<'a>, Error>;

    fn next(&mut self) -> Option<Self::Item> {
        let position = self.position.take()?;
        self.step(position).transpose()
    }
}

impl FusedIterator for TaggedRecords<'_> {}

/// The suite numbers of all records of a list, in order.
///
/// Where all records are standard ones with a number of the table and one algorithm of each kind, these are the numbers of
/// [`ChannelCipherSuites::parse_full_data`].
///
/// ```
/// use ghjalvestru::app::auth::tagged_records::suite_numbers;
/// use ghjalvestru::Error;
///
/// assert_eq!(suite_numbers(&[0xC0, 0x03, 0x01, 0xC1, 0x80, 0xF2, 0x1B, 0x00, 0x03]), Ok(vec![0x03, 0x80]));
/// assert_eq!(suite_numbers(&[0xC0, 0x03, 0x01, 0x00]), Err(Error::BadRecord(3)));
/// ```
///
/// # Errors
///
/// [`Error::BadRecord`] with the place.
///
/// [`ChannelCipherSuites::parse_full_data`]: super::ChannelCipherSuites::parse_full_data
pub fn suite_numbers(list: &[u8]) -> Result<Vec<u8>, Error> {
    let mut numbers = vec![0; length(sys::tagged_count(list))?];
    length(sys::tagged_numbers(list, &mut numbers))?;
    Ok(numbers)
}

/// The same with whose suites they are.
///
/// ```
/// use ghjalvestru::app::auth::tagged_records::suite_listing;
/// use ghjalvestru::app::auth::Owner;
///
/// let listing = suite_listing(&[0xC0, 0x03, 0x01, 0xC1, 0x80, 0xF2, 0x1B, 0x00, 0x03]);
/// assert_eq!(listing, Ok(vec![(0x03, Owner::Standard), (0x80, Owner::Vendor(7154))]));
/// ```
///
/// # Errors
///
/// [`Error::BadRecord`] with the place.
pub fn suite_listing(list: &[u8]) -> Result<Vec<(u8, Owner)>, Error> {
    let mut listing = vec![[0; LISTED]; length(sys::tagged_count(list))?];
    length(sys::tagged_listing(list, listing.as_flattened_mut()))?;
    let entry = |[number, own, vendor @ ..]: [u8; LISTED]| (number, Owner::new(own, vendor));
    Ok(listing.into_iter().map(entry).collect())
}

/// The bytes of a record, its algorithms given by their numbers.
///
/// ```
/// use ghjalvestru::app::auth::tagged_records::write;
/// use ghjalvestru::app::auth::Owner;
/// use ghjalvestru::Error;
///
/// assert_eq!(write(Owner::Standard, 3, 1, &[1], &[1]), Ok(vec![0xC0, 0x03, 0x01, 0x41, 0x81]));
/// assert_eq!(write(Owner::Standard, 3, 64, &[], &[]), Err(Error::NoForm));
/// ```
///
/// # Errors
///
/// [`Error::NoForm`] where an algorithm's number is above 63 or the vendor's number is 2 to the power of 24 or more.
pub fn write(
    owner: Owner,
    number: u8,
    authentication: u8,
    integrity: &[u8],
    confidentiality: &[u8],
) -> Result<Vec<u8>, Error> {
    let (own, vendor) = owner.parts();
    let mut out = vec![0; HEAD + integrity.len() + confidentiality.len()];
    let written = length(sys::tagged_write(
        own,
        vendor,
        number,
        authentication,
        integrity,
        confidentiality,
        &mut out,
    ))?;
    out.truncate(written);
    Ok(out)
}

#[cfg(test)]
mod tests {
    use super::*;
    use crate::app::auth::ChannelCipherSuites;

    /// The records before the end or the refusal, and the refusal.
    fn read(list: &[u8]) -> (Vec<TaggedRecord<'_>>, Option<Error>) {
        let mut reading = TaggedRecords::new(list);
        let mut records = Vec::new();
        while let Some(item) = reading.next() {
            match item {
                Ok(record) => records.push(record),
                Err(refusal) => {
                    assert_eq!([reading.next(), reading.next()], [None, None]);
                    return (records, Some(refusal));
                }
            }
        }
        assert_eq!(reading.next(), None);
        (records, None)
    }

    fn written(record: &TaggedRecord<'_>) -> Vec<u8> {
        let [integrity, confidentiality] =
            [record.integrity(), record.confidentiality()].map(|numbers| {
                let length = numbers.len();
                let numbers: Vec<u8> = numbers.collect();
                assert_eq!(numbers.len(), length);
                numbers
            });
        let TaggedRecord { owner, number, .. } = *record;
        let authentication = record.authentication;
        write(owner, number, authentication, &integrity, &confidentiality).unwrap()
    }

    /// Those of the request.
    #[test]
    fn examples() {
        for (list, place) in [
            (&[0xC0][..], 1),
            (&[0xC0, 0x03, 0x41], 2),
            (&[0xC0, 0x03, 0x01, 0x00], 3),
            (&[0xC0, 0x03, 0x01, 0x81, 0x41], 4),
        ] {
            let refused = Error::BadRecord(place);
            assert_eq!(read(list).1, Some(refused));
            assert_eq!(suite_numbers(list), Err(refused));
            assert_eq!(suite_listing(list), Err(refused));
        }
        let (records, refusal) = read(&[0xC0, 0x03, 0x01]);
        assert_eq!((records.len(), refusal), (1, None));
        assert_eq!(records[0].integrity().next(), None);
        assert_eq!(read(&[]), (vec![], None));
        assert_eq!(suite_numbers(&[]), Ok(vec![]));
        assert_eq!(suite_listing(&[]), Ok(vec![]));
    }

    /// A standard record and a vendor's own, cut at every place: a record's algorithms may end anywhere.
    #[test]
    fn cut_at_every_place() {
        let list = [
            0xC0, 0x03, 0x01, 0x41, 0x81, 0xC1, 0x80, 0xFF, 0xFE, 0xFD, 0x3F, 0x40, 0x7F, 0x80,
            0xBF,
        ];
        for length in 0..=list.len() {
            let list = &list[..length];
            let (records, refusal) = read(list);
            let within = matches!(length, 1 | 2 | 6..=10);
            assert_eq!(refusal, within.then_some(Error::BadRecord(length)));
            let whole: Vec<u8> = records.iter().flat_map(written).collect();
            assert!(list.starts_with(&whole) && (within || list == whole));
            let numbers = records.iter().map(|record| record.number).collect();
            assert_eq!(suite_numbers(list), refusal.map_or(Ok(numbers), Err));
            let listing = records.iter().map(|record| (record.number, record.owner));
            let listing = listing.collect();
            assert_eq!(suite_listing(list), refusal.map_or(Ok(listing), Err));
        }
        let (records, _) = read(&list);
        assert_eq!(records[1].owner, Owner::Vendor(0xFD_FE_FF));
        assert!(records[1].integrity().eq([0, 63]) && records[1].confidentiality().eq([0, 63]));
        assert_eq!(records[1].authentication, 63);
    }

    /// Though a record stands there.
    #[test]
    fn nothing_behind_a_refusal() {
        let (records, refusal) = read(&[0xC0, 0x03, 0x01, 0xC2, 0xC0, 0x04, 0x01]);
        assert_eq!((records.len(), refusal), (1, Some(Error::BadRecord(3))));
    }

    /// A place is more than a byte.
    #[test]
    fn long_lists() {
        let mut list = vec![0x7F; 0x12345];
        list[..3].copy_from_slice(&[0xC0, 0x03, 0x01]);
        let (records, refusal) = read(&list);
        assert_eq!(refusal, None);
        assert!(records[0].integrity().eq(vec![63; 0x12342]));
        assert_eq!(written(&records[0]), list);
        list.push(0x3F);
        assert_eq!(read(&list).1, Some(Error::BadRecord(0x12345)));
        let list = [0xC0, 0x11, 0x03, 0x44, 0x81].repeat(1000);
        assert_eq!(suite_numbers(&list), Ok(vec![17; 1000]));
        assert_eq!(suite_listing(&list), Ok(vec![(17, Owner::Standard); 1000]));
    }

    #[test]
    fn what_has_no_form() {
        let most = Owner::Vendor(0xFF_FF_FF);
        let bytes = [0xC1, 0xFF, 0xFF, 0xFF, 0xFF, 0x3F, 0x7F, 0xBF];
        assert_eq!(write(most, 0xFF, 63, &[63], &[63]), Ok(bytes.to_vec()));
        for vendor in [1 << 24, u32::MAX] {
            let refused = write(Owner::Vendor(vendor), 0, 0, &[], &[]);
            assert_eq!(refused, Err(Error::NoForm));
        }
        for number in 64..=u8::MAX {
            for (authentication, integrity, confidentiality) in [
                (number, &[0][..], &[0][..]),
                (0, &[0, number], &[0]),
                (0, &[0], &[number, 0]),
            ] {
                let refused = write(most, 0, authentication, integrity, confidentiality);
                assert_eq!(refused, Err(Error::NoForm));
            }
        }
    }

    /// Standard records with known numbers and one algorithm of each kind: the same suites as the older reading's.
    #[test]
    fn the_older_reading_of_known_records() {
        let list: Vec<u8> = (0..20)
            .flat_map(|id| [0xC0, id, 0x01, 0x41, 0x81])
            .collect();
        let older = ChannelCipherSuites::parse_full_data(&list).map(|suite| suite.id());
        assert_eq!(suite_numbers(&list), Ok(older.collect()));
    }
}
