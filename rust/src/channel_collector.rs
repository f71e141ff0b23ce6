//! The collector for a channel, whose answers are taken as they come.

use crate::app::auth::CipherSuite;
use crate::collector::{list, suites};
use crate::connection::Channel;
use crate::number::{accepted, certain};
use crate::{sys, Collector, Error, Status};
use std::fmt;

/// Joins a list that a controller answers by suite, sixteen bytes at a time behind a byte with its channel, in any order.
///
/// It is made for a channel and takes answers of no other; one that is made for [`Channel::Current`] takes the channel of its
/// first accepted answer, and from then on no other. This is the reading that a real controller needs;
/// [`GetChannelCipherSuites::by_suite`](crate::app::auth::GetChannelCipherSuites::by_suite) asks for its answers. Not `Copy`: it
/// holds a kilobyte.
///
/// Its `Debug` is one line, as `ChannelCollector { channel: 1, from: 1, parts: 1, bytes: 16, status: Missing(1) }`: the number
/// of the channel that it was made for, the one that it takes answers from, or a dash, and what [`Collector`] shows.
///
/// ```
/// use ghjalvestru::app::auth::CipherSuite;
/// use ghjalvestru::connection::Channel;
/// use ghjalvestru::{ChannelCollector, Error, Status};
///
/// let mut collector = ChannelCollector::new(Channel::new(1)?);
/// assert_eq!(collector.status(), Status::Missing(0));
/// collector.answer(0, &[0x01, 0xC0, 0x03, 0x01, 0x41, 0x81])?;
/// assert_eq!(collector.suites()?, [CipherSuite::Id3]);
/// assert_eq!(collector.answer(1, &[0x02]), Err(Error::WrongChannel));
/// # Ok::<(), Error>(())
/// ```
#[derive(Clone, PartialEq, Eq, Hash)]
pub struct ChannelCollector {
    channel: Channel,
    /// One more than the number of the channel that answers come from; 0 while none is taken.
    from: u8,
    collector: Collector,
}

impl fmt::Debug for ChannelCollector {
    fn fmt(&self, f: &mut fmt::Formatter<'_>) -> fmt::Result {
        let channel = self.channel.value();
        let from = match self.answers_from() {
            Some(from) => from.value().to_string(),
            None => "-".into(),
        };
        let heard = self.collector.heard();
        // Written here, so that `{:#?}` makes no more lines of it.
        write!(
            f,
            "ChannelCollector {{ channel: {channel}, from: {from}, {heard} }}"
        )
    }
}

impl ChannelCollector {
    /// One for this channel that has heard nothing.
    #[must_use]
    pub fn new(channel: Channel) -> Self {
        // Only the number of no channel is refused.
        let from = certain(accepted(sys::channel_collector_from(channel.value())));
        Self {
            channel,
            from: from as u8,
            collector: Collector::new(),
        }
    }

    /// The channel that it was made for.
    #[must_use]
    pub fn channel(&self) -> Channel {
        self.channel
    }

    /// The channel that it takes answers from: the one that it was made for, or, where that is [`Channel::Current`], the one of
    /// its first accepted answer, none before.
    #[must_use]
    pub fn answers_from(&self) -> Option<Channel> {
        let number = self.from.checked_sub(1)?;
        Some(certain(Channel::new(number)))
    }

    /// Takes the answer to an index: the whole response data, as they came. A refusal changes nothing.
    ///
    /// # Errors
    ///
    /// [`Error::BadIndex`] above 0x3F, [`Error::NotEnoughData`] for no bytes, [`Error::TooMuchData`] above seventeen,
    /// [`Error::NoChannel`] where the low nibble of the first byte is 0xC or 0xD, [`Error::WrongChannel`] where it is of another
    /// channel than answers come from, [`Error::Disagrees`] where no list of at most 1,024 bytes explains this answer and those
    /// accepted, in this order.
    pub fn answer(&mut self, index: u8, response: &[u8]) -> Result<(), Error> {
        let heard = &mut self.collector;
        accepted(sys::channel_collector_answer(
            self.channel.value(),
            &mut self.from,
            &mut heard.bytes,
            &mut heard.marks,
            &mut heard.known,
            index,
            response,
        ))
        .map(drop)
    }

    /// Is the list complete?
    #[must_use]
    pub fn status(&self) -> Status {
        let heard = &self.collector;
        Status::of(sys::channel_collector_status(
            self.channel.value(),
            self.from,
            &heard.bytes,
            &heard.marks,
            &heard.known,
        ))
    }

    /// The whole list.
    ///
    /// # Errors
    ///
    /// [`Error::Incomplete`] with the lowest unheard index.
    pub fn list(&self) -> Result<Vec<u8>, Error> {
        let heard = &self.collector;
        list(|out| {
            sys::channel_collector_list(
                self.channel.value(),
                self.from,
                &heard.bytes,
                &heard.marks,
                &heard.known,
                out,
            )
        })
    }

    /// The suites of the whole list, up to the first step of its reading that gives none.
    ///
    /// # Errors
    ///
    /// [`Error::Incomplete`] with the lowest unheard index.
    pub fn suites(&self) -> Result<Vec<CipherSuite>, Error> {
        let heard = &self.collector;
        suites(|out| {
            sys::channel_collector_suites(
                self.channel.value(),
                self.from,
                &heard.bytes,
                &heard.marks,
                &heard.known,
                out,
            )
        })
    }
}

#[cfg(test)]
mod tests {
    use super::*;

    fn made_for(number: u8) -> ChannelCollector {
        ChannelCollector::new(Channel::new(number).unwrap())
    }

    /// Every channel takes its own answers, and none of another channel; the high nibble is not looked at.
    #[test]
    fn of_a_channel() {
        let numbers = || (0..=0xF).filter(|number| ![0xC, 0xD].contains(number));
        for number in numbers().filter(|number| *number != 0xE) {
            let mut collector = made_for(number);
            let channel = Channel::new(number).unwrap();
            assert_eq!(collector.channel(), channel);
            assert_eq!(collector.answers_from(), Some(channel));
            for other in numbers().filter(|other| *other != number) {
                assert_eq!(collector.answer(0, &[other]), Err(Error::WrongChannel));
            }
            assert_eq!(collector, made_for(number));
            collector.answer(0, &[0xA0 + number]).unwrap();
            assert_eq!(collector.status(), Status::Complete(0));
            assert_eq!(collector.answers_from(), Some(channel));
        }
    }

    /// The first accepted answer has the channel, 0xE too; a refused one has not.
    #[test]
    fn of_the_current_one() {
        let mut collector = ChannelCollector::new(Channel::Current);
        assert_eq!(collector.answers_from(), None);
        assert_eq!(collector.answer(0, &[0x0C]), Err(Error::NoChannel));
        assert_eq!(collector.answer(0x40, &[0x01]), Err(Error::BadIndex));
        assert_eq!(collector.answers_from(), None);
        let mut other = collector.clone();
        collector.answer(1, &[0x3E, 7]).unwrap();
        assert_eq!(collector.channel(), Channel::Current);
        assert_eq!(collector.answers_from(), Some(Channel::Current));
        assert_eq!(collector.answer(1, &[0x01, 7]), Err(Error::WrongChannel));
        other.answer(1, &[0x01, 7]).unwrap();
        assert_eq!(other.channel(), Channel::Current);
        assert_eq!(other.answers_from(), Some(Channel::new(1).unwrap()));
        assert_eq!(other.answer(1, &[0x0E, 7]), Err(Error::WrongChannel));
        assert_ne!(collector, other);
    }

    /// In their order, and none changes the collector.
    #[test]
    fn refusals_change_nothing() {
        let mut collector = made_for(1);
        collector.answer(1, &[0x01, 7, 7, 7]).unwrap();
        let before = collector.clone();
        for (index, response, error) in [
            (0x40, &[0x0C; 18][..], Error::BadIndex),
            (0x3F, &[], Error::NotEnoughData),
            (0x3F, &[0x0C; 18], Error::TooMuchData),
            (0x3F, &[0x0C; 17], Error::NoChannel),
            (0x3F, &[0x02; 17], Error::WrongChannel),
            (0x3F, &[0x01; 17], Error::Disagrees),
            (2, &[0x01, 7], Error::Disagrees),
        ] {
            assert_eq!(collector.answer(index, response), Err(error));
            assert_eq!(collector, before);
        }
        assert_eq!(collector.answer(1, &[0x01, 7, 7, 7]), Ok(()));
        assert_eq!(collector, before);
    }

    /// The longest list, of the longest answers.
    #[test]
    fn the_longest_list() {
        let mut collector = made_for(0xB);
        for index in 0..=0x3F {
            assert_eq!(collector.status(), Status::Missing(index));
            assert_eq!(collector.list(), Err(Error::Incomplete(index)));
            assert_eq!(collector.suites(), Err(Error::Incomplete(index)));
            collector
                .answer(index, &[&[0x0B], &[index; 16][..]].concat())
                .unwrap();
        }
        assert_eq!(collector.status(), Status::Complete(1024));
        let list: Vec<u8> = (0..=0x3F).flat_map(|index| [index; 16]).collect();
        assert_eq!(collector.list(), Ok(list));
        assert_eq!(collector.suites(), Ok(vec![]));
    }

    /// One line, whatever it holds.
    #[test]
    fn shown_in_one_line() {
        let shows = |collector: &ChannelCollector, text: &str| {
            assert_eq!(format!("{collector:?}"), text);
            assert_eq!(format!("{collector:#?}"), text);
        };
        let mut collector = ChannelCollector::new(Channel::Current);
        shows(
            &collector,
            "ChannelCollector { channel: 14, from: -, parts: 0, bytes: 0, status: Missing(0) }",
        );
        collector.answer(0, &[0x01; 17]).unwrap();
        shows(
            &collector,
            "ChannelCollector { channel: 14, from: 1, parts: 1, bytes: 16, status: Missing(1) }",
        );
        collector.answer(1, &[0x01; 4]).unwrap();
        shows(
            &collector,
            "ChannelCollector { channel: 14, from: 1, parts: 2, bytes: 19, status: Complete(19) }",
        );
    }
}
