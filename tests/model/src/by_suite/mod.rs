//! Get Channel Cipher Suites by suite, made from the request's words and from
//! nothing of the port: a request whose reader has tried which command writes
//! these bytes, an answer, and the collector for a channel, by searching for
//! the channel numbers and the lists that explain what was accepted.

mod answers;
mod questions;

pub use answers::{answer, ROWS};
pub use questions::questions;

use crate::collector::{Answer, Collector, Hears, Status, Verdict, LAST_INDEX, PART};
use std::collections::HashMap;
use std::sync::LazyLock;

pub const NOT_ENOUGH_DATA: u8 = 1;
pub const TOO_MUCH_DATA: u8 = 2;
pub const NO_CHANNEL: u8 = 6;
pub const BAD_INDEX: u8 = 7;
pub const NO_FORM: u8 = 9;
pub const NOT_A_REQUEST: u8 = 10;
pub const INCOMPLETE: u8 = 13;
pub const WRONG_CHANNEL: u8 = 15;

pub const CURRENT: u8 = 0xE;

/// The numbers that channels have: 0 is Primary, 1 to 0xB are numbered, 0xE is
/// Current and 0xF is System.
pub const CHANNELS: [u8; 14] = [0, 1, 2, 3, 4, 5, 6, 7, 8, 9, 10, 11, CURRENT, 0xF];

/// The request: bit 7 of its last byte asks for the list by suite.
pub fn request(channel: u8, index: u8) -> Result<[u8; 3], u8> {
    if !CHANNELS.contains(&channel) {
        return Err(NO_CHANNEL);
    }
    if index > LAST_INDEX {
        return Err(BAD_INDEX);
    }
    Ok([channel, 0, 128 + index])
}

/// Which command, a channel and an index, writes exactly these bytes?
pub fn read(request: &[u8]) -> Result<(u8, u8), u8> {
    WRITTEN.get(request).copied().ok_or(NOT_A_REQUEST)
}

static WRITTEN: LazyLock<HashMap<[u8; 3], (u8, u8)>> = LazyLock::new(|| {
    let mut written = HashMap::new();
    for channel in 0..=u8::MAX {
        for index in 0..=u8::MAX {
            let Ok(bytes) = request(channel, index) else {
                continue;
            };
            let other = written.insert(bytes, (channel, index));
            assert_eq!(other, None, "two commands write the same bytes");
        }
    }
    written
});

/// An answer, read alone: the channel's number and the list's bytes.
pub fn heard(response: &[u8]) -> Result<(u8, &[u8]), u8> {
    let Some((first, list)) = response.split_first() else {
        return Err(NOT_ENOUGH_DATA);
    };
    if response.len() > 17 {
        return Err(TOO_MUCH_DATA);
    }
    let number = first % 16;
    if !CHANNELS.contains(&number) {
        return Err(NO_CHANNEL);
    }
    Ok((number, list))
}

/// What the reader makes of an answer: a channel, a length, and sixteen bytes,
/// zeros behind the length.
pub type Record = (u8, usize, [u8; PART]);

fn record(response: &[u8]) -> Result<Record, u8> {
    let (number, list) = heard(response)?;
    let mut bytes = [0; PART];
    bytes[..list.len()].copy_from_slice(list);
    Ok((number, list.len(), bytes))
}

/// The answer with the high nibble 0 that reads as this record.
pub fn written(wanted: Record) -> Result<Vec<u8>, u8> {
    let (number, length, bytes) = wanted;
    let list = bytes.get(..length).ok_or(NO_FORM)?;
    let response = [&[number], list].concat();
    if number < 16 && record(&response) == Ok(wanted) {
        return Ok(response);
    }
    Err(NO_FORM)
}

/// The suites of a list as document 01 reads it: up to the first step that
/// gives nothing, which is one that begins with another byte than C0, names no
/// suite, or is cut off.
pub fn suites(list: &[u8]) -> Vec<u8> {
    let suite = |step: &[u8]| match *step {
        [0xC0, number, _, _, _] if number < 20 => Some(number),
        _ => None,
    };
    list.chunks(5).map_while(suite).collect()
}

/// The collector for a channel: all that was accepted, every channel number
/// that explains it, and the bytes after the first in a collector of their own.
/// A number that explains no more never comes back, as what was accepted stays.
pub struct ChannelCollector {
    made_for: u8,
    numbers: Vec<u8>,
    accepted: Vec<(u8, Answer)>,
    list: Collector,
}

impl ChannelCollector {
    /// An explanation's channel number is the collector's unless it was made for
    /// Current; all legal ones explain what has not been heard.
    pub fn made_for(channel: u8) -> Result<Self, u8> {
        if !CHANNELS.contains(&channel) {
            return Err(NO_CHANNEL);
        }
        let mut numbers = CHANNELS.to_vec();
        numbers.retain(|&number| channel == CURRENT || number == channel);
        Ok(Self {
            made_for: channel,
            numbers,
            accepted: Vec::new(),
            list: Collector::fresh(),
        })
    }

    /// An answer, its channel's byte first.
    pub fn hear(&mut self, answer: &Answer) -> Verdict {
        if answer.index > LAST_INDEX {
            return Verdict::Refused(BAD_INDEX);
        }
        let (heard, bytes) = match heard(&answer.bytes) {
            Ok(answer) => answer,
            Err(refusal) => return Verdict::Refused(refusal),
        };
        if !self.numbers.contains(&heard) {
            return Verdict::Refused(WRONG_CHANNEL);
        }
        let part = Answer {
            index: answer.index,
            bytes: bytes.to_vec(),
        };
        let verdict = self.list.hear(&part);
        if verdict == Verdict::Accepted {
            self.numbers.retain(|&number| number == heard);
            self.accepted.push((heard, part));
        }
        verdict
    }

    /// Demand 3 speaks of the bytes after the first.
    pub fn status(&self) -> Status {
        self.list.status()
    }

    /// Its channel.
    pub fn channel(&self) -> u8 {
        self.made_for
    }

    /// The channel that its answers come from, as soon as only one is left.
    pub fn from(&self) -> Option<u8> {
        match self.numbers[..] {
            [number] => Some(number),
            _ => None,
        }
    }

    /// What was accepted, in order: the channel's number, and the list's bytes.
    pub fn accepted(&self) -> &[(u8, Answer)] {
        &self.accepted
    }
}

#[cfg(test)]
mod tests {
    use super::*;
    use crate::collector::tests::explaining;
    use crate::history;

    /// "The number in the low nibble has to be that channel"; "an explanation is
    /// one list and one channel number, which is the collector's unless it was
    /// made for Current": all of them, slowly.
    fn explanations(made_for: u8, answers: &[&Answer]) -> (Vec<u8>, Vec<Vec<Option<u8>>>) {
        let from = |number: u8| answers.iter().all(|it| it.bytes[0] & 0x0F == number);
        let legal = |number: u8| number <= 0xB || number == 0xE || number == 0xF;
        let numbers = (0..=u8::MAX)
            .filter(|&number| legal(number) && from(number))
            .filter(|&number| made_for == 0xE || number == made_for)
            .collect();
        let tails: Vec<Answer> = answers
            .iter()
            .map(|it| Answer {
                index: it.index,
                bytes: it.bytes[1..].to_vec(),
            })
            .collect();
        (numbers, explaining(&tails.iter().collect::<Vec<_>>()))
    }

    fn compare(made_for: u8, history: &[Answer]) {
        let mut collector = ChannelCollector::made_for(made_for).expect("a channel");
        let mut accepted: Vec<&Answer> = Vec::new();
        for answer in history {
            let verdict = collector.hear(answer);
            let with = [&accepted[..], &[answer]].concat();
            let expected = if answer.index > 63 {
                Verdict::Refused(7)
            } else if answer.bytes.is_empty() {
                Verdict::Refused(1)
            } else if answer.bytes.len() > 17 {
                Verdict::Refused(2)
            } else if matches!(answer.bytes[0] & 0x0F, 0xC | 0xD) {
                Verdict::Refused(6)
            } else {
                let (numbers, lists) = explanations(made_for, &with);
                if numbers.is_empty() {
                    Verdict::Refused(15)
                } else if lists.is_empty() {
                    Verdict::Refused(12)
                } else {
                    accepted = with;
                    Verdict::Accepted
                }
            };
            assert_eq!(verdict, expected);

            let (numbers, lists) = explanations(made_for, &accepted);
            let taken = (numbers.len() == 1).then(|| numbers[0]);
            assert_eq!(collector.from(), taken);
            assert_eq!(taken.is_some(), made_for != CURRENT || !accepted.is_empty());
            assert_eq!(collector.accepted().len(), accepted.len());
            if let Status::Complete(list) = collector.status() {
                let known: Vec<Option<u8>> = list.iter().copied().map(Some).collect();
                assert_eq!(lists, [known]);
            }
        }
    }

    #[test]
    fn the_search_says_the_same() {
        for seed in 0..250u32 {
            let (made_for, history) = history::by_suite(&seed.to_be_bytes());
            compare(made_for, &history);
        }
    }

    /// "6 also when made for a bad channel."
    #[test]
    fn made_for_a_channel() {
        for channel in 0..=u8::MAX {
            let made = ChannelCollector::made_for(channel);
            let legal = channel < 0x10 && channel != 0xC && channel != 0xD;
            match made {
                Ok(collector) => {
                    assert!(legal);
                    let from = (channel != CURRENT).then_some(channel);
                    assert_eq!(collector.from(), from);
                }
                Err(refusal) => assert_eq!((legal, refusal), (false, 6)),
            }
        }
    }

    /// "The new one for Current takes it from the first accepted answer": 0xE
    /// too, and a refused one takes none.
    #[test]
    fn current() {
        let one = |index, bytes: &[u8]| Answer {
            index,
            bytes: bytes.to_vec(),
        };
        let mut collector = ChannelCollector::made_for(CURRENT).expect("a channel");
        for (index, bytes, refusal) in [
            (64, &[0x02][..], 7),
            (0, &[], 1),
            (0, &[0x02; 18], 2),
            (0, &[0x0C], 6),
        ] {
            let verdict = collector.hear(&one(index, bytes));
            assert_eq!(verdict, Verdict::Refused(refusal));
            assert_eq!(collector.from(), None);
        }
        assert_eq!(collector.hear(&one(1, &[0x3E, 7])), Verdict::Accepted);
        assert_eq!(collector.from(), Some(0xE));
        assert_eq!(collector.hear(&one(1, &[0x03, 7])), Verdict::Refused(15));
        assert_eq!(collector.hear(&one(2, &[0x0E, 7])), Verdict::Refused(12));
    }

    /// The request's three bytes, of all strings of three.
    #[test]
    fn the_reader_is_strict() {
        for number in 0..1u32 << 24 {
            let [_, channel, payload, last] = number.to_be_bytes();
            let legal = channel < 0x10 && channel != 0xC && channel != 0xD;
            let good = legal && payload == 0 && last & 0xC0 == 0x80;
            let expected = if good {
                Ok((channel, last & 0x3F))
            } else {
                Err(10)
            };
            assert_eq!(read(&[channel, payload, last]), expected);
        }
        for other in [&[][..], &[1], &[1, 0], &[1, 0, 0x82, 0]] {
            assert_eq!(read(other), Err(10));
        }
        assert_eq!(request(0x0C, 0x40), Err(6));
        assert_eq!(request(0x01, 0x40), Err(7));
        assert_eq!(request(0x01, 0x02), Ok([0x01, 0x00, 0x82]));
    }

    /// "Then up to sixteen record bytes": what is read is written again, with the
    /// high nibble 0, and nothing else is.
    #[test]
    fn answers() {
        for first in 0..=u8::MAX {
            for length in 0..=17 {
                let response = [&[first][..], &[0xC0; 17][..length]].concat();
                let nibble = first & 0x0F;
                let expected = match (length, nibble) {
                    (17, _) => Err(2),
                    (_, 0xC | 0xD) => Err(6),
                    _ => Ok((nibble, &response[1..])),
                };
                assert_eq!(heard(&response), expected);
                if let Ok(read) = record(&response) {
                    assert_eq!(written(read), Ok([&[nibble], &response[1..]].concat()));
                }
            }
        }
        assert_eq!(heard(&[]), Err(1));
        let mut behind = [0; PART];
        behind[5] = 1;
        assert_eq!(written((1, 5, behind)), Err(9));
        assert!(written((1, 6, behind)).is_ok());
        assert_eq!(written((1, 17, [0; PART])), Err(9));
        assert_eq!(written((0xC, 5, [0; PART])), Err(9));
        assert_eq!(written((0x11, 5, [0; PART])), Err(9));
    }

    /// A step at a time, as document 01 has it.
    #[test]
    fn suites_of_a_list() {
        assert_eq!(suites(&[]), []);
        let two = [0xC0, 3, 1, 0x41, 0x81, 0xC0, 19, 0, 0, 0];
        assert_eq!(suites(&two), [3, 19]);
        assert_eq!(suites(&two[..9]), [3]);
        assert_eq!(suites(&[0xC0, 20, 0, 0, 0, 0xC0, 3, 1, 0x41, 0x81]), []);
        assert_eq!(suites(&[0xC1, 3, 1, 0x41, 0x81]), []);
    }
}
