//! The collector, whose answers are bytes of the list alone.

use crate::app::auth::CipherSuite;
use crate::number::{accepted, certain, part};
use crate::sys::{self, CAPACITY, KNOWN, MISSING, PARTS};
use crate::Error;
use std::fmt;

/// Joins a list that arrives sixteen bytes at a time, in any order. Not `Copy`: it holds a kilobyte.
///
/// Every byte of an answer is one of the list, as ipmi-rs-core reads it. A real controller's answers begin with their channel:
/// for them [`ChannelCollector`](crate::ChannelCollector) is wanted.
///
/// Its `Debug` is one line, as `Collector { parts: 1, bytes: 16, status: Missing(1) }`: the parts that were heard, their
/// bytes, and where it stands.
///
/// ```
/// use ghjalvestru::{Collector, Error, Status};
///
/// let mut collector = Collector::new();
/// collector.answer(0, &[0xC0, 0x03, 0x01, 0x41, 0x81, 0xC0, 0x08, 0x02, 0x42, 0x81, 0xC0, 0x11, 0x03, 0x44, 0x81, 0xC0])?;
/// assert_eq!(collector.status(), Status::Missing(1));
/// assert_eq!(collector.list(), Err(Error::Incomplete(1)));
/// collector.answer(1, &[0x0C, 0x02, 0x43, 0x81])?;
/// assert_eq!(collector.status(), Status::Complete(20));
/// let numbers: Vec<u8> = collector.suites()?.iter().map(|suite| suite.id()).collect();
/// assert_eq!(numbers, [3, 8, 17, 12]);
/// # Ok::<(), Error>(())
/// ```
#[derive(Clone, PartialEq, Eq, Hash)]
pub struct Collector {
    pub(crate) bytes: [u8; CAPACITY],
    pub(crate) marks: [u8; PARTS],
    pub(crate) known: [u8; KNOWN],
}

/// What a collector has heard.
///
/// ```
/// use ghjalvestru::connection::Channel;
/// use ghjalvestru::{ChannelCollector, Error, Status};
///
/// # fn ask(index: u8) -> Vec<u8> {
/// #     let list = [0xC0, 0x03, 0x01, 0x41, 0x81].repeat(5);
/// #     [&[0x01], list.chunks(16).nth(index.into()).unwrap_or_default()].concat()
/// # }
/// // `ask` sends the request of an index and gives the response's data.
/// let mut collector = ChannelCollector::new(Channel::new(1)?);
/// while let Status::Missing(index) = collector.status() {
///     collector.answer(index, &ask(index))?;
/// }
/// assert_eq!(collector.status(), Status::Complete(25));
/// # Ok::<(), Error>(())
/// ```
#[derive(Clone, Copy, Debug, PartialEq, Eq, Hash)]
pub enum Status {
    /// The whole list, of this length.
    Complete(usize),
    /// Not the whole list; the lowest index not heard.
    Missing(u8),
}

impl Status {
    /// Of a collector that no other code touches, so that its arrays are what calls make of fresh ones.
    pub(crate) fn of(number: u64) -> Self {
        let number = certain(accepted(number));
        match number.checked_sub(MISSING) {
            Some(index) => Self::Missing(index as u8),
            None => Self::Complete(number as usize),
        }
    }
}

/// The whole list, which a call writes.
pub(crate) fn list(call: impl FnOnce(&mut [u8]) -> u64) -> Result<Vec<u8>, Error> {
    part::<CAPACITY>(call)
}

/// The suites whose numbers a call writes.
pub(crate) fn suites(call: impl FnOnce(&mut [u8]) -> u64) -> Result<Vec<CipherSuite>, Error> {
    let numbers = part::<CAPACITY>(call)?;
    Ok(numbers.into_iter().map(CipherSuite::of_the_table).collect())
}

impl Default for Collector {
    fn default() -> Self {
        Self {
            bytes: [0; CAPACITY],
            marks: [0; PARTS],
            known: [0; KNOWN],
        }
    }
}

impl fmt::Debug for Collector {
    fn fmt(&self, f: &mut fmt::Formatter<'_>) -> fmt::Result {
        // Written here, so that `{:#?}` makes no more lines of it.
        write!(f, "Collector {{ {} }}", self.heard())
    }
}

impl Collector {
    /// One that has heard nothing.
    #[must_use]
    pub fn new() -> Self {
        Self::default()
    }

    /// The parts that were heard, their bytes, and where it stands.
    pub(crate) fn heard(&self) -> impl fmt::Display {
        // A mark is one more than its part's length.
        let lengths = self.marks.iter().filter_map(|mark| mark.checked_sub(1));
        let (parts, bytes) = lengths.fold((0, 0), |(parts, bytes), length| {
            (parts + 1, bytes + usize::from(length))
        });
        let status = self.status();
        format!("parts: {parts}, bytes: {bytes}, status: {status:?}")
    }

    /// Takes the answer to an index: the whole response data, as ipmi-rs-core reads it. A real controller's begins with its
    /// channel, which this reading would take for a byte of the list. A refusal changes nothing.
    ///
    /// # Errors
    ///
    /// [`Error::BadIndex`] above 0x3F, [`Error::TooMuchData`] above sixteen bytes, [`Error::Disagrees`] where no list of at
    /// most 1,024 bytes explains this answer and those accepted, in this order.
    pub fn answer(&mut self, index: u8, response: &[u8]) -> Result<(), Error> {
        let Self {
            bytes,
            marks,
            known,
        } = self;
        accepted(sys::collector_answer(bytes, marks, known, index, response)).map(drop)
    }

    /// Is the list complete?
    #[must_use]
    pub fn status(&self) -> Status {
        Status::of(sys::collector_status(&self.bytes, &self.marks, &self.known))
    }

    /// The whole list.
    ///
    /// # Errors
    ///
    /// [`Error::Incomplete`] with the lowest unheard index.
    pub fn list(&self) -> Result<Vec<u8>, Error> {
        list(|out| sys::collector_list(&self.bytes, &self.marks, &self.known, out))
    }

    /// The suites of the whole list, up to the first step of its reading that gives none.
    ///
    /// # Errors
    ///
    /// [`Error::Incomplete`] with the lowest unheard index.
    pub fn suites(&self) -> Result<Vec<CipherSuite>, Error> {
        suites(|out| sys::collector_suites(&self.bytes, &self.marks, &self.known, out))
    }
}

#[cfg(test)]
mod tests {
    use super::*;

    /// P11.
    #[test]
    fn an_empty_list() {
        let mut collector = Collector::new();
        assert_eq!(collector.status(), Status::Missing(0));
        assert_eq!(collector.suites(), Err(Error::Incomplete(0)));
        collector.answer(0, &[]).unwrap();
        assert_eq!(collector.status(), Status::Complete(0));
        assert_eq!(collector.list(), Ok(vec![]));
        assert_eq!(collector.suites(), Ok(vec![]));
    }

    /// P12.
    #[test]
    fn in_any_order() {
        let mut collector = Collector::default();
        collector.answer(0, &[1; 16]).unwrap();
        collector.answer(2, &[]).unwrap();
        assert_eq!(collector.status(), Status::Missing(1));
        collector.answer(1, &[2; 3]).unwrap();
        assert_eq!(collector.status(), Status::Complete(19));
        assert_eq!(collector.list(), Ok([[1; 16].as_slice(), &[2; 3]].concat()));
    }

    /// P13, and the other refusals: none changes the collector.
    #[test]
    fn refusals_change_nothing() {
        let mut collector = Collector::new();
        collector.answer(1, &[7; 3]).unwrap();
        let before = collector.clone();
        assert_eq!(collector.answer(2, &[7]), Err(Error::Disagrees));
        assert_eq!(collector.answer(0x40, &[7; 17]), Err(Error::BadIndex));
        assert_eq!(collector.answer(0x3F, &[7; 17]), Err(Error::TooMuchData));
        assert_eq!(collector.answer(1, &[7; 3]), Ok(()));
        assert_eq!(collector, before);
    }

    /// One line, whatever it holds.
    #[test]
    fn shown_in_one_line() {
        let shows = |collector: &Collector, text: &str| {
            assert_eq!(format!("{collector:?}"), text);
            assert_eq!(format!("{collector:#?}"), text);
        };
        let mut collector = Collector::new();
        shows(
            &collector,
            "Collector { parts: 0, bytes: 0, status: Missing(0) }",
        );
        collector.answer(0, &[1; 16]).unwrap();
        collector.answer(2, &[]).unwrap();
        shows(
            &collector,
            "Collector { parts: 2, bytes: 16, status: Missing(1) }",
        );
        collector.answer(1, &[2; 3]).unwrap();
        shows(
            &collector,
            "Collector { parts: 3, bytes: 19, status: Complete(19) }",
        );
        let mut whole = Collector::new();
        (0..=0x3F).for_each(|index| whole.answer(index, &[0xFF; 16]).unwrap());
        shows(
            &whole,
            "Collector { parts: 64, bytes: 1024, status: Complete(1024) }",
        );
    }

    /// What is stored is what a search over the marks finds, after each answer.
    #[test]
    fn stored_as_heard() {
        let mut collector = Collector::new();
        assert_eq!(collector.known, [0, 0]);
        for (index, length, known) in [
            (2, 0, [0, 0]),
            (0, 16, [1, 0]),
            (1, 3, [3, 1]),
            (4, 0, [3, 1]),
            (3, 0, [5, 1]),
        ] {
            collector.answer(index, &[7; 16][..length]).unwrap();
            assert_eq!(collector.known, known);
        }
    }

    /// A full last part ends the list.
    #[test]
    fn the_longest_list() {
        let mut collector = Collector::new();
        for index in 0..=0x3F {
            assert_eq!(collector.status(), Status::Missing(index));
            collector.answer(index, &[index; 16]).unwrap();
        }
        assert_eq!(collector.status(), Status::Complete(1024));
        assert_eq!(collector.known, [64, 1]);
        assert_eq!(collector.list().unwrap().len(), 1024);
    }
}
