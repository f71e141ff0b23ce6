//! Get Channel Cipher Suites, 54h; the suites and the reading of their list. Reference: IPMI 2.0, 22.15, Table 22-17.

use super::{AuthenticationAlgorithm, ConfidentialityAlgorithm, IntegrityAlgorithm};
use crate::connection::{Channel, IpmiCommand, Message};
use crate::number::{certain, length, record, some};
use crate::sys::{self, CAPACITY, PARTS};
use crate::Error;
use std::ops::Deref;

/// How many bytes of the list an answer has at most.
const PART: usize = CAPACITY / PARTS;

/// Asks for a part of the list of suites, as ipmi-rs-core does. For a real controller [`GetChannelCipherSuites::by_suite`] is
/// wanted, which asks for it by suite. Reference: IPMI 2.0, Table 22-17.
///
/// ```
/// use ghjalvestru::app::auth::GetChannelCipherSuites;
/// use ghjalvestru::connection::{Channel, Message};
/// use ghjalvestru::Error;
///
/// let message: Message = GetChannelCipherSuites::new(Channel::new(1)?, 2)?.into();
/// assert_eq!((message.cmd(), message.data()), (0x54, &[0x01, 0x00, 0x02][..]));
/// assert_eq!(GetChannelCipherSuites::new(Channel::Current, 0x40), Err(Error::BadIndex));
/// # Ok::<(), Error>(())
/// ```
#[derive(Clone, Copy, Debug, PartialEq, Eq, Hash)]
pub struct GetChannelCipherSuites {
    channel: Channel,
    list_index: u8,
}

impl GetChannelCipherSuites {
    /// The command's number.
    pub const COMMAND: u8 = 0x54;

    /// For the part of this index.
    ///
    /// # Errors
    ///
    /// [`Error::BadIndex`] above 0x3F.
    pub fn new(channel: Channel, list_index: u8) -> Result<Self, Error> {
        request(channel, list_index)?;
        Ok(Self {
            channel,
            list_index,
        })
    }

    /// The same by suite, with bit 7 of the last byte set: what a real controller is asked.
    ///
    /// # Errors
    ///
    /// [`Error::BadIndex`] above 0x3F.
    pub fn by_suite(channel: Channel, list_index: u8) -> Result<BySuite, Error> {
        by_suite_request(channel, list_index)?;
        Ok(BySuite {
            channel,
            list_index,
        })
    }
}

fn request(channel: Channel, list_index: u8) -> Result<[u8; 3], Error> {
    record(|out| sys::suites_request(channel.value(), list_index, out))
}

impl From<GetChannelCipherSuites> for Message {
    fn from(command: GetChannelCipherSuites) -> Self {
        let data = request(command.channel, command.list_index);
        Message::request(GetChannelCipherSuites::COMMAND, certain(data))
    }
}

impl IpmiCommand for GetChannelCipherSuites {
    type Output = ChannelCipherSuites;

    fn parse_success_response(data: &[u8]) -> Result<ChannelCipherSuites, Error> {
        ChannelCipherSuites::parse(data)
    }
}

/// Asks for a part of the list of suites by suite; made by [`GetChannelCipherSuites::by_suite`]. Reference: IPMI 2.0, Table
/// 22-17.
///
/// ```
/// use ghjalvestru::app::auth::GetChannelCipherSuites;
/// use ghjalvestru::connection::{Channel, Message};
/// use ghjalvestru::Error;
///
/// let message: Message = GetChannelCipherSuites::by_suite(Channel::new(1)?, 2)?.into();
/// assert_eq!((message.cmd(), message.data()), (0x54, &[0x01, 0x00, 0x82][..]));
/// assert_eq!(GetChannelCipherSuites::by_suite(Channel::Current, 0x40), Err(Error::BadIndex));
/// # Ok::<(), Error>(())
/// ```
#[derive(Clone, Copy, Debug, PartialEq, Eq, Hash)]
pub struct BySuite {
    channel: Channel,
    list_index: u8,
}

impl BySuite {
    /// The command's number.
    pub const COMMAND: u8 = GetChannelCipherSuites::COMMAND;
}

fn by_suite_request(channel: Channel, list_index: u8) -> Result<[u8; 3], Error> {
    record(|out| sys::by_suite_request(channel.value(), list_index, out))
}

impl From<BySuite> for Message {
    fn from(command: BySuite) -> Self {
        let data = by_suite_request(command.channel, command.list_index);
        Message::request(BySuite::COMMAND, certain(data))
    }
}

impl IpmiCommand for BySuite {
    type Output = ChannelSuites;

    fn parse_success_response(data: &[u8]) -> Result<ChannelSuites, Error> {
        ChannelSuites::parse(data)
    }
}

/// An answer by suite: its channel and its part of the list. [`ChannelCollector`](crate::ChannelCollector) joins the answers.
///
/// ```
/// use ghjalvestru::app::auth::ChannelSuites;
/// use ghjalvestru::connection::Channel;
/// use ghjalvestru::Error;
///
/// let answer = ChannelSuites::parse(&[0x01, 0xC0, 0x03, 0x01, 0x41, 0x81])?;
/// assert_eq!(answer.channel, Channel::new(1)?);
/// assert_eq!(answer.suites[..2], [0xC0, 0x03]);
/// assert_eq!(ChannelSuites::parse(&[]), Err(Error::NotEnoughData));
/// # Ok::<(), Error>(())
/// ```
#[derive(Clone, Copy, Debug, PartialEq, Eq, Hash)]
pub struct ChannelSuites {
    /// The channel that answers: the low nibble of the first byte.
    pub channel: Channel,
    /// The bytes behind it.
    pub suites: ChannelCipherSuites,
}

impl ChannelSuites {
    /// Reads a response.
    ///
    /// # Errors
    ///
    /// [`Error::NotEnoughData`] for no bytes, [`Error::TooMuchData`] above seventeen, [`Error::NoChannel`] where the low nibble
    /// of the first byte is 0xC or 0xD, in this order.
    pub fn parse(data: &[u8]) -> Result<Self, Error> {
        let mut record = [0; 1 + PART];
        let length = length(sys::by_suite(data, &mut record))?;
        let [channel, record_data @ ..] = record;
        Ok(Self {
            channel: certain(Channel::new(channel)),
            suites: ChannelCipherSuites {
                data_length: length - 1,
                record_data,
            },
        })
    }
}

/// A part of the list of suites; as a slice, its bytes. [`Collector`](crate::Collector) joins the parts.
///
/// ```
/// use ghjalvestru::app::auth::ChannelCipherSuites;
/// use ghjalvestru::Error;
///
/// let part = ChannelCipherSuites::parse(&[0xC0, 0x03, 0x01, 0x41, 0x81])?;
/// assert_eq!(part[..2], [0xC0, 0x03]);
/// assert_eq!(ChannelCipherSuites::parse(&[0; 17]), Err(Error::TooMuchData));
/// # Ok::<(), Error>(())
/// ```
#[derive(Clone, Copy, Debug, PartialEq, Eq, Hash)]
pub struct ChannelCipherSuites {
    data_length: usize,
    record_data: [u8; PART],
}

impl ChannelCipherSuites {
    /// Reads a response, every byte of which is one of the list, as ipmi-rs-core does. A real controller's begins with its
    /// channel: [`ChannelSuites::parse`] reads that.
    ///
    /// # Errors
    ///
    /// [`Error::TooMuchData`] above sixteen bytes.
    pub fn parse(data: &[u8]) -> Result<Self, Error> {
        let mut record_data = [0; PART];
        let data_length = length(sys::suites(data, &mut record_data))?;
        Ok(Self {
            data_length,
            record_data,
        })
    }

    /// Reads a whole list. As with the crate ipmi-rs-core, a call of `next` may give a suite after one that gave none.
    ///
    /// ```
    /// use ghjalvestru::app::auth::ChannelCipherSuites;
    ///
    /// let list = [0xC0, 0x03, 0x01, 0x41, 0x81, 0xC0, 0x11, 0x03, 0x44, 0x81];
    /// let numbers: Vec<u8> = ChannelCipherSuites::parse_full_data(&list).map(|suite| suite.id()).collect();
    /// assert_eq!(numbers, [3, 17]);
    /// ```
    #[must_use]
    pub fn parse_full_data(data: &[u8]) -> Iter<'_> {
        Iter {
            list: data,
            position: 0,
            failed: 0,
        }
    }
}

impl Deref for ChannelCipherSuites {
    type Target = [u8];

    fn deref(&self) -> &[u8] {
        let all = &self.record_data;
        all.get(..self.data_length).unwrap_or(all)
    }
}

/// The suites of a list, a step at a time.
#[derive(Clone, Debug)]
pub struct Iter<'a> {
    list: &'a [u8],
    position: usize,
    failed: u8,
}

impl Iterator for Iter<'_> {
    type Item = CipherSuite;

    fn next(&mut self) -> Option<CipherSuite> {
        let number = sys::suite_step(self.list, &mut self.position, &mut self.failed);
        some(number).map(CipherSuite::of_the_table)
    }
}

/// A cipher suite of the standard's table, named by its number. Reference: IPMI 2.0, 22.15.
///
/// ```
/// use ghjalvestru::app::auth::{CipherSuite, ConfidentialityAlgorithm};
///
/// let suite = CipherSuite::from_id(17);
/// assert_eq!(suite, Some(CipherSuite::Id17));
/// assert_eq!(CipherSuite::Id17.confidentiality(), ConfidentialityAlgorithm::AesCbc128);
/// assert_eq!(CipherSuite::from_id(20), None);
/// ```
#[derive(Clone, Copy, Debug, PartialEq, Eq, PartialOrd, Ord, Hash)]
#[allow(missing_docs)] // The numbers say all.
pub enum CipherSuite {
    Id0,
    Id1,
    Id2,
    Id3,
    Id4,
    Id5,
    Id6,
    Id7,
    Id8,
    Id9,
    Id10,
    Id11,
    Id12,
    Id13,
    Id14,
    Id15,
    Id16,
    Id17,
    Id18,
    Id19,
}

impl CipherSuite {
    /// In the order of their numbers.
    const ALL: [Self; 20] = [
        Self::Id0,
        Self::Id1,
        Self::Id2,
        Self::Id3,
        Self::Id4,
        Self::Id5,
        Self::Id6,
        Self::Id7,
        Self::Id8,
        Self::Id9,
        Self::Id10,
        Self::Id11,
        Self::Id12,
        Self::Id13,
        Self::Id14,
        Self::Id15,
        Self::Id16,
        Self::Id17,
        Self::Id18,
        Self::Id19,
    ];

    /// Its number.
    #[must_use]
    pub fn id(&self) -> u8 {
        *self as u8
    }

    /// The suite of a number.
    #[must_use]
    pub fn from_id(value: u8) -> Option<Self> {
        Self::ALL.get(usize::from(value)).copied()
    }

    /// The suite of a number that C gave as one of the table.
    pub(crate) fn of_the_table(value: u8) -> Self {
        certain(Self::from_id(value).ok_or(value))
    }

    /// The suite of three algorithms' numbers: authentication, integrity, confidentiality.
    #[must_use]
    pub fn from_suite([authentication, integrity, confidentiality]: [u8; 3]) -> Option<Self> {
        let number = sys::suite_of(authentication, integrity, confidentiality);
        some(number).map(Self::of_the_table)
    }

    /// The numbers of its algorithms: authentication, integrity, confidentiality.
    #[must_use]
    pub fn into_suite(self) -> [u8; 3] {
        let mut row = [0; 3];
        let number = sys::suite_algorithms(self.id(), &mut row);
        certain(some(number).map(|_| row).ok_or(self))
    }

    /// How its sessions are begun.
    #[must_use]
    pub fn authentication(&self) -> AuthenticationAlgorithm {
        certain(self.into_suite()[0].try_into())
    }

    /// How its packets are sealed.
    #[must_use]
    pub fn integrity(&self) -> IntegrityAlgorithm {
        certain(self.into_suite()[1].try_into())
    }

    /// How its packets are kept secret.
    #[must_use]
    pub fn confidentiality(&self) -> ConfidentialityAlgorithm {
        certain(self.into_suite()[2].try_into())
    }
}

#[cfg(test)]
mod tests {
    use super::*;

    /// P3.
    #[test]
    fn requests() {
        let channel = Channel::new(1).unwrap();
        let message = Message::from(GetChannelCipherSuites::new(channel, 2).unwrap());
        assert_eq!(message.data(), [0x01, 0x00, 0x02]);
        assert_eq!((message.netfn_raw(), message.cmd()), (0x06, 0x54));
        assert_eq!(
            GetChannelCipherSuites::new(channel, 0x40),
            Err(Error::BadIndex)
        );
    }

    #[test]
    fn parts() {
        for length in 0..=16 {
            let part = ChannelCipherSuites::parse(&[0xC0; 16][..length]).unwrap();
            assert_eq!(part[..], [0xC0; 16][..length]);
        }
        assert_eq!(
            ChannelCipherSuites::parse(&[0; 17]),
            Err(Error::TooMuchData)
        );
    }

    #[test]
    fn requests_by_suite() {
        for index in 0..=0x3F {
            let command = GetChannelCipherSuites::by_suite(Channel::Current, index).unwrap();
            let message = Message::from(command);
            assert_eq!(message.data(), [0x0E, 0x00, 0x80 + index]);
            assert_eq!((message.netfn_raw(), message.cmd()), (0x06, 0x54));
        }
        for index in 0x40..=u8::MAX {
            assert_eq!(
                GetChannelCipherSuites::by_suite(Channel::Current, index),
                Err(Error::BadIndex)
            );
        }
    }

    #[test]
    fn answers_by_suite() {
        for length in 1..=17 {
            let answer = BySuite::parse_success_response(&[0xFB; 17][..length]).unwrap();
            assert_eq!(answer.channel.value(), 0xB);
            assert_eq!(answer.suites[..], [0xFB; 17][1..length]);
        }
        assert_eq!(ChannelSuites::parse(&[]), Err(Error::NotEnoughData));
        assert_eq!(ChannelSuites::parse(&[0x0C; 18]), Err(Error::TooMuchData));
        for first in 0..=u8::MAX {
            let channel = ChannelSuites::parse(&[first]).map(|answer| answer.channel);
            assert_eq!(channel, Channel::new(first % 0x10));
        }
    }

    /// P10: the first step gives nothing, the second one does.
    #[test]
    fn steps() {
        let mut reading =
            ChannelCipherSuites::parse_full_data(&[0xC0, 0x14, 0xC0, 0x03, 0x01, 0x41, 0x81]);
        assert_eq!(reading.next(), None);
        assert_eq!(reading.next(), Some(CipherSuite::Id3));
        assert_eq!(reading.next(), None);
        let mut failed = ChannelCipherSuites::parse_full_data(&[0xC1, 0xC0, 0x03, 0, 0, 0]);
        assert_eq!([failed.next(), failed.next(), failed.next()], [None; 3]);
    }

    /// All twenty, so that no suite has an algorithm without a name.
    #[test]
    fn suites() {
        for id in 0..20 {
            let suite = CipherSuite::from_id(id).unwrap();
            assert_eq!(suite.id(), id);
            assert_eq!(format!("{suite:?}"), format!("Id{id}"));
            let row = [
                suite.authentication().into(),
                suite.integrity().into(),
                suite.confidentiality().into(),
            ];
            assert_eq!(suite.into_suite(), row);
            assert_eq!(CipherSuite::from_suite(row), Some(suite));
        }
        assert_eq!((20..=u8::MAX).find_map(CipherSuite::from_id), None);
        assert_eq!(CipherSuite::from_suite([0, 0, 1]), None);
        assert_eq!(
            CipherSuite::Id17.confidentiality(),
            ConfidentialityAlgorithm::AesCbc128
        );
    }
}
