//! Refusals.

use std::fmt;

/// Why an input was refused. A refusal changes nothing. More may come, each with a number of its own.
///
/// ```
/// use ghjalvestru::app::auth::BeginSessionInfo;
/// use ghjalvestru::Error;
///
/// let refused = BeginSessionInfo::parse(&[0x03, 0x01, 0x00, 0x00, 0x00, 0x00, 0x00, 0x00, 0x00, 0x04]);
/// let error = refused.expect_err("there is no type 3");
/// assert_eq!(error, Error::InvalidAuthType(3));
/// assert_eq!((error.number(), error.name(), error.carried()), (4, "InvalidAuthType", Some(3)));
/// assert_eq!(error.to_string(), "refused 4 (InvalidAuthType, 0x03)");
/// ```
#[derive(Clone, Copy, Debug, PartialEq, Eq, PartialOrd, Ord, Hash)]
#[non_exhaustive]
pub enum Error {
    /// A response is too short; a challenge is not 20 bytes; channel info has a channel that does not exist.
    NotEnoughData,
    /// A response of Get Channel Cipher Suites is above 16 bytes, or one by suite above 17.
    TooMuchData,
    /// The session number is 0.
    InvalidZeroSession,
    /// The low nibble of the byte names no authentication type.
    InvalidAuthType(u8),
    /// The byte names no privilege level.
    InvalidPrivilegeLevel(u8),
    /// There is no channel of this number.
    NoChannel,
    /// A list index is above 0x3F.
    BadIndex,
    /// A user name is above 16 bytes.
    LongName,
    /// There is nothing that has this form as bytes.
    NoForm,
    /// No command writes these bytes.
    NotARequest,
    /// The lent buffer is shorter than what is written.
    NoRoom,
    /// No list explains this answer and those accepted.
    Disagrees,
    /// The list is not complete; the lowest unheard index.
    Incomplete(u8),
    /// A line that cannot be read.
    BadLine,
    /// An answer comes from another channel than the collector's.
    WrongChannel,
    /// A list is no sequence of records: the place of the first byte from which no continuation gives one, or the length if
    /// only the end is missing.
    BadRecord(usize),
}

impl Error {
    /// The refusal of a number and of what it carries.
    pub(crate) fn from_number(number: u8, carried: u64) -> Option<Self> {
        // Where a byte is carried, there is no more than that.
        let byte = carried as u8;
        Some(match number {
            1 => Self::NotEnoughData,
            2 => Self::TooMuchData,
            3 => Self::InvalidZeroSession,
            4 => Self::InvalidAuthType(byte),
            5 => Self::InvalidPrivilegeLevel(byte),
            6 => Self::NoChannel,
            7 => Self::BadIndex,
            8 => Self::LongName,
            9 => Self::NoForm,
            10 => Self::NotARequest,
            11 => Self::NoRoom,
            12 => Self::Disagrees,
            13 => Self::Incomplete(byte),
            14 => Self::BadLine,
            15 => Self::WrongChannel,
            16 => Self::BadRecord(carried as usize),
            _ => return None,
        })
    }

    /// Its number and its name.
    fn row(&self) -> (u8, &'static str) {
        match self {
            Self::NotEnoughData => (1, "NotEnoughData"),
            Self::TooMuchData => (2, "TooMuchData"),
            Self::InvalidZeroSession => (3, "InvalidZeroSession"),
            Self::InvalidAuthType(_) => (4, "InvalidAuthType"),
            Self::InvalidPrivilegeLevel(_) => (5, "InvalidPrivilegeLevel"),
            Self::NoChannel => (6, "NoChannel"),
            Self::BadIndex => (7, "BadIndex"),
            Self::LongName => (8, "LongName"),
            Self::NoForm => (9, "NoForm"),
            Self::NotARequest => (10, "NotARequest"),
            Self::NoRoom => (11, "NoRoom"),
            Self::Disagrees => (12, "Disagrees"),
            Self::Incomplete(_) => (13, "Incomplete"),
            Self::BadLine => (14, "BadLine"),
            Self::WrongChannel => (15, "WrongChannel"),
            Self::BadRecord(_) => (16, "BadRecord"),
        }
    }

    /// The refusal's number, from 1 to 16.
    #[must_use]
    pub fn number(&self) -> u8 {
        self.row().0
    }

    /// The refusal's name, as the variant's.
    #[must_use]
    pub fn name(&self) -> &'static str {
        self.row().1
    }

    /// The byte that was refused, of [`Error::Incomplete`] the lowest unheard index, of [`Error::BadRecord`] the place.
    #[must_use]
    pub fn carried(&self) -> Option<usize> {
        match *self {
            Self::InvalidAuthType(byte)
            | Self::InvalidPrivilegeLevel(byte)
            | Self::Incomplete(byte) => Some(byte.into()),
            Self::BadRecord(place) => Some(place),
            _ => None,
        }
    }
}

impl fmt::Display for Error {
    fn fmt(&self, f: &mut fmt::Formatter<'_>) -> fmt::Result {
        let carried = match (self, self.carried()) {
            (Self::BadRecord(place), _) => format!(", at {place}"),
            (_, Some(byte)) => format!(", 0x{byte:02X}"),
            (_, None) => String::new(),
        };
        f.pad(&format!(
            "refused {} ({}{carried})",
            self.number(),
            self.name()
        ))
    }
}

impl std::error::Error for Error {}

#[cfg(test)]
mod tests {
    use super::*;
    use crate::number::accepted;
    use crate::sys::REFUSED;

    #[test]
    fn numbers_and_names_are_those_of_the_variants() {
        for number in 1..=16 {
            let error = Error::from_number(number, 0xA5).unwrap();
            assert_eq!(error.number(), number);
            let shown = format!("{error:?}");
            let name = shown.strip_suffix("(165)").unwrap_or(&shown);
            assert_eq!(error.name(), name);
            assert_eq!(error.carried(), (name != shown).then_some(0xA5));
        }
        for number in [0].into_iter().chain(17..=u8::MAX) {
            assert_eq!(Error::from_number(number, 0), None);
        }
    }

    #[test]
    fn it_is_shown_with_what_it_carries() {
        let error: Box<dyn std::error::Error> = Error::InvalidAuthType(3).into();
        assert_eq!(error.to_string(), "refused 4 (InvalidAuthType, 0x03)");
        assert_eq!(Error::NoRoom.to_string(), "refused 11 (NoRoom)");
        assert_eq!(format!("{:>21}|", Error::NoRoom), "  refused 11 (NoRoom)|");
        assert_eq!(
            Error::BadRecord(1024).to_string(),
            "refused 16 (BadRecord, at 1024)"
        );
    }

    /// A place has 55 bits in C's number.
    #[test]
    fn places() {
        for place in [0, 1, 0xFF, 0x100, 0x12345, (1 << 55) - 1] {
            assert_eq!(
                accepted(REFUSED + 16 + ((place as u64) << 8)),
                Err(Error::BadRecord(place))
            );
        }
        assert_eq!(
            accepted(REFUSED + 13 + (63 << 8)),
            Err(Error::Incomplete(63))
        );
    }
}
