//! Set Channel Access, made from the request's words and from nothing of the
//! port: numbers, a writer that adds them up, and a reader that has tried which
//! command writes these bytes.

mod answers;
mod questions;

pub use answers::{answer, ROWS};
pub use questions::questions;

use std::collections::HashMap;
use std::sync::LazyLock;

/// What a Get shows: the mode; alerting, per-message and user-level
/// authentication disabled, 0 or 1 each; the privilege limit.
pub type Access = [u8; 5];

/// Of one channel, the non-volatile ones first.
pub type Settings = [Access; 2];

pub const NO_CHANNEL: u8 = 6;
pub const NO_FORM: u8 = 9;
pub const NOT_A_REQUEST: u8 = 10;

#[derive(Clone, Copy, Debug, PartialEq)]
pub struct Command {
    pub channel: u8,
    /// 0 leave, 1 set non-volatile, 2 set volatile: of the first byte of a Get
    /// response, then of the limit.
    pub pairs: [u8; 2],
    pub access: Access,
}

impl Command {
    /// A sum, as no two fields have a bit in common.
    pub fn write(&self) -> Result<[u8; 3], u8> {
        if !matches!(self.channel, 0..=0xB | 0xE | 0xF) {
            return Err(NO_CHANNEL);
        }
        self.has_form()?;
        let [mode, alerting, per_message, user_level, limit] = self.access;
        let disabled = 32 * alerting + 16 * per_message + 8 * user_level;
        Ok([
            self.channel,
            64 * self.pairs[0] + disabled + mode,
            64 * self.pairs[1] + limit,
        ])
    }

    /// Each of the ten numbers by itself: it is set where the pair that speaks
    /// of it names the settings that it is in.
    pub fn apply(&self, before: &Settings) -> Result<Settings, u8> {
        self.has_form()?;
        let set = |kind: usize, place: usize| {
            let pair = self.pairs[usize::from(place == 4)];
            usize::from(pair) == kind + 1
        };
        let after = |kind: usize, place: usize| {
            if set(kind, place) {
                self.access[place]
            } else {
                before[kind][place]
            }
        };
        Ok([0, 1].map(|kind| [0, 1, 2, 3, 4].map(|place| after(kind, place))))
    }

    /// No pair is the reserved one, and a Get reader can give mode and limit.
    fn has_form(&self) -> Result<(), u8> {
        let [mode, _, _, _, limit] = self.access;
        let good = self.pairs.iter().all(|&pair| pair < 3) && mode < 8 && limit < 16;
        good.then_some(()).ok_or(NO_FORM)
    }
}

/// Which command writes exactly these bytes?
pub fn read(request: &[u8]) -> Result<Command, u8> {
    WRITTEN.get(request).copied().ok_or(NOT_A_REQUEST)
}

static WRITTEN: LazyLock<HashMap<[u8; 3], Command>> = LazyLock::new(|| {
    let mut written = HashMap::new();
    for command in (0..TRIED).map(tried) {
        let Ok(bytes) = command.write() else {
            continue;
        };
        let other = written.insert(bytes, command);
        assert_eq!(other, None, "two commands write the same bytes");
    }
    written
});

/// How many there are of `tried`.
const TRIED: usize = 17 * 4 * 4 * 9 * 2 * 2 * 2 * 17;

/// Command `n`: its fields are the digits of `n`, and each has a value more than
/// those that are written.
fn tried(n: usize) -> Command {
    let mut rest = n;
    let mut digit = |values| {
        let digit = rest % values;
        rest /= values;
        digit as u8
    };
    Command {
        channel: digit(17),
        pairs: [digit(4), digit(4)],
        access: [digit(9), digit(2), digit(2), digit(2), digit(17)],
    }
}

#[cfg(test)]
mod tests {
    use super::*;

    const BEFORE: Settings = [[2, 0, 1, 0, 4], [7, 1, 0, 1, 15]];

    fn command(request: &[u8]) -> Command {
        read(request).expect("a command")
    }

    /// The response to a Get, bit by bit.
    fn shown(access: Access) -> [u8; 2] {
        let [mode, alerting, per_message, user_level, limit] = access;
        [
            alerting << 5 | per_message << 4 | user_level << 3 | mode,
            limit,
        ]
    }

    /// "Byte 0 is the channel. Byte 1 has bits 7:6 .., then the same disable bits
    /// and mode as the Get response .. Byte 2 has its own 7:6 and the limit in
    /// the low nibble."
    #[test]
    fn the_fields_stand_in_their_bits() {
        for (bytes, command) in WRITTEN.iter() {
            let [first, second] = shown(command.access);
            assert_eq!(bytes[0], command.channel);
            assert_eq!(bytes[1], command.pairs[0] << 6 | first);
            assert_eq!(bytes[2], command.pairs[1] << 6 | second);
        }
    }

    /// "Writer and strict reader": of all strings of three bytes, those are
    /// commands that have a channel, no 11 in either pair, and clear bits where
    /// there is no field.
    #[test]
    fn the_reader_is_strict() {
        let mut count = 0;
        for number in 0..1u32 << 24 {
            let [_, channel, second, third] = number.to_be_bytes();
            let good = channel < 16
                && channel != 0xC
                && channel != 0xD
                && second >> 6 != 0b11
                && third >> 6 != 0b11
                && third & 0x30 == 0;
            let answer = read(&[channel, second, third]);
            assert_eq!(answer.is_ok(), good);
            count += usize::from(good);
            if let Ok(command) = answer {
                assert_eq!(command.write(), Ok([channel, second, third]));
            } else {
                assert_eq!(answer, Err(10));
            }
        }
        assert_eq!(count, WRITTEN.len());
        for other in [&[][..], &[1], &[1, 0], &[1, 0, 0, 0], &[0, 1, 0, 0]] {
            assert_eq!(read(other), Err(10));
        }
    }

    /// "Refusals: 9, on writing and applying, for 11 in either pair of bits or a
    /// mode or limit that no Get reader gives", whatever the pairs say of them;
    /// a channel that no number makes comes before it.
    #[test]
    fn refusals() {
        let good = command(&[0x01, 0x3F, 0x04]);
        let mut bad = [good; 6];
        bad[0].pairs[0] = 3;
        bad[1].pairs[1] = 3;
        bad[2].access[0] = 8;
        bad[3].access[4] = 16;
        bad[4].access[0] = 255;
        bad[5].access[4] = 255;
        for mut bad in bad {
            assert_eq!(bad.write(), Err(9));
            assert_eq!(bad.apply(&BEFORE), Err(9));
            bad.channel = 0x0C;
            assert_eq!(bad.write(), Err(6));
            assert_eq!(bad.apply(&BEFORE), Err(9));
        }
        for channel in [0x0C, 0x0D, 0x10, 0xFF] {
            assert_eq!(Command { channel, ..good }.write(), Err(6));
        }
    }

    /// "A Get afterwards shows exactly the parts that were set, the part marked
    /// leave as before", byte by byte of the response to a Get of either kind,
    /// for all commands of a channel.
    #[test]
    fn a_get_shows_what_was_set() {
        for (bytes, command) in WRITTEN.iter().filter(|(bytes, _)| bytes[0] == 7) {
            let after = command.apply(&BEFORE).expect("it has a form");
            for (kind, bits) in [(0, 0x40), (1, 0x80)] {
                let mut expected = shown(BEFORE[kind]);
                if bytes[1] & 0xC0 == bits {
                    expected[0] = bytes[1] & 0x3F;
                }
                if bytes[2] & 0xC0 == bits {
                    expected[1] = bytes[2] & 0x0F;
                }
                assert_eq!(shown(after[kind]), expected);
            }
        }
    }

    /// 00 leaves what it speaks of, also where bits beside it are set; they are
    /// kept in the command.
    #[test]
    fn leave_leaves() {
        let command = command(&[0x01, 0x3F, 0x04]);
        assert_eq!(command.pairs, [0, 0]);
        assert_eq!(command.access, [7, 1, 1, 1, 4]);
        assert_eq!(command.apply(&BEFORE), Ok(BEFORE));
    }

    /// Neither the channel nor the settings' own numbers have a say.
    #[test]
    fn applied_to_any_settings() {
        let set = command(&[0x01, 0x42, 0x84]);
        let expected = Ok([[2, 0, 0, 0, 4], [7, 1, 0, 1, 4]]);
        for channel in 0..=255 {
            assert_eq!(Command { channel, ..set }.apply(&BEFORE), expected);
        }
        for number in 0..=255 {
            let before = [[number; 5]; 2];
            let [mut non_volatile, mut volatile] = before;
            non_volatile[..4].copy_from_slice(&[2, 0, 0, 0]);
            volatile[4] = 4;
            assert_eq!(set.apply(&before), Ok([non_volatile, volatile]));
        }
    }
}
