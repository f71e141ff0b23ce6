//! Channels, messages and commands.

use crate::number::{record, show};
use crate::{sys, Error};
use std::fmt;
use std::num::NonZeroU8;

/// A numbered channel, 1 to 0xB.
#[derive(Clone, Copy, Debug, PartialEq, Eq, PartialOrd, Ord, Hash)]
pub struct ChannelNumber(NonZeroU8);

impl ChannelNumber {
    /// The numbered channel of this number.
    ///
    /// # Errors
    ///
    /// [`Error::NoChannel`] above 0xB.
    pub fn new(value: NonZeroU8) -> Result<Self, Error> {
        match Channel::new(value.get())? {
            Channel::Numbered(number) => Ok(number),
            _ => Err(Error::NoChannel),
        }
    }

    /// Its number.
    #[must_use]
    pub fn value(&self) -> NonZeroU8 {
        self.0
    }
}

/// A channel. Reference: IPMI 2.0, 6.3, Table 6-1.
///
/// ```
/// use ghjalvestru::connection::Channel;
/// use ghjalvestru::Error;
///
/// let channel = Channel::new(0x0B)?;
/// assert_eq!((u8::from(channel), channel.to_string().as_str()), (0x0B, "Channel 0xB"));
/// assert_eq!(Channel::new(0x0E), Ok(Channel::Current));
/// assert_eq!(Channel::new(0x0C), Err(Error::NoChannel));
/// # Ok::<(), Error>(())
/// ```
// In the order of their numbers, so that they compare so.
#[derive(Clone, Copy, Debug, PartialEq, Eq, PartialOrd, Ord, Hash)]
pub enum Channel {
    /// The primary channel, 0.
    Primary,
    /// A numbered channel.
    Numbered(ChannelNumber),
    /// The channel that is being used, 0xE.
    Current,
    /// The system interface, 0xF.
    System,
}

impl Channel {
    /// The channel of this number.
    ///
    /// # Errors
    ///
    /// [`Error::NoChannel`] for 0xC, 0xD and above 0xF.
    pub fn new(value: u8) -> Result<Self, Error> {
        // The request of a channel's info is refused exactly where there is no such channel.
        record::<1>(|out| sys::info_request(value, out))?;
        Ok(match NonZeroU8::new(value) {
            None => Self::Primary,
            Some(_) if value == 0xE => Self::Current,
            Some(_) if value == 0xF => Self::System,
            Some(value) => Self::Numbered(ChannelNumber(value)),
        })
    }

    /// Its number.
    #[must_use]
    pub fn value(&self) -> u8 {
        match self {
            Self::Primary => 0x0,
            Self::Numbered(number) => number.value().get(),
            Self::Current => 0xE,
            Self::System => 0xF,
        }
    }
}

impl TryFrom<u8> for Channel {
    type Error = Error;

    fn try_from(value: u8) -> Result<Self, Error> {
        Self::new(value)
    }
}

impl From<Channel> for u8 {
    fn from(channel: Channel) -> Self {
        channel.value()
    }
}

impl fmt::Display for Channel {
    fn fmt(&self, f: &mut fmt::Formatter<'_>) -> fmt::Result {
        show(f, |out| sys::channel_text(self.value(), out))
    }
}

/// The network function of all commands of this crate: App, in requests. Reference: IPMI 2.0, 5.1, Table 5-1.
pub(crate) const APP: u8 = 0x06;

/// A request: what is sent for a command, by a transport of the caller's.
///
/// ```
/// use ghjalvestru::app::GetChannelInfo;
/// use ghjalvestru::connection::{Channel, Message};
///
/// let message: Message = GetChannelInfo::new(Channel::Current).into();
/// assert_eq!((message.netfn_raw(), message.cmd(), message.data()), (0x06, 0x42, &[0x0E][..]));
/// ```
#[derive(Clone, Debug, PartialEq, Eq, Hash)]
pub struct Message {
    cmd: u8,
    data: Vec<u8>,
}

impl Message {
    pub(crate) fn request<const N: usize>(cmd: u8, data: [u8; N]) -> Self {
        let data = data.to_vec();
        Self { cmd, data }
    }

    /// The network function's number.
    #[must_use]
    pub fn netfn_raw(&self) -> u8 {
        APP
    }

    /// The command's number.
    #[must_use]
    pub fn cmd(&self) -> u8 {
        self.cmd
    }

    /// The data behind the command's number.
    #[must_use]
    pub fn data(&self) -> &[u8] {
        &self.data
    }

    /// The same, given away.
    #[must_use]
    pub fn into_data(self) -> Vec<u8> {
        self.data
    }
}

/// A command, which is sent as a [`Message`], and the reading of its response.
///
/// ```
/// use ghjalvestru::app::GetChannelAccess;
/// use ghjalvestru::connection::{Channel, IpmiCommand, Message};
/// use ghjalvestru::Error;
///
/// /// Sends any command: `exchange` is the transport, from a request to the data behind the completion code.
/// fn ask<C: IpmiCommand>(command: C, exchange: impl FnOnce(Message) -> Vec<u8>) -> Result<C::Output, Error> {
///     C::parse_success_response(&exchange(command.into()))
/// }
///
/// let access = ask(GetChannelAccess::volatile(Channel::Current), |_| vec![0x22, 0x04])?;
/// assert!(access.alerting_disabled);
/// # Ok::<(), Error>(())
/// ```
pub trait IpmiCommand: Into<Message> {
    /// What a response says.
    type Output;

    /// Reads a response: the data behind a completion code of success.
    ///
    /// # Errors
    ///
    /// Those of the reader of its output.
    fn parse_success_response(data: &[u8]) -> Result<Self::Output, Error>;
}

#[cfg(test)]
mod tests {
    use super::*;

    /// P1 and P2 of the scope document, and all other numbers.
    #[test]
    fn channels() {
        for value in 0..=u8::MAX {
            match Channel::new(value) {
                Ok(channel) => assert_eq!(channel.value(), value),
                Err(error) => assert_eq!(error, Error::NoChannel),
            }
            assert_eq!(
                Channel::new(value).is_ok(),
                value <= 0xB || value == 0xE || value == 0xF
            );
            if let Some(number) = NonZeroU8::new(value) {
                let known = ChannelNumber::new(number).map(|known| known.value());
                assert_eq!(
                    known,
                    if value <= 0xB {
                        Ok(number)
                    } else {
                        Err(Error::NoChannel)
                    }
                );
            }
        }
        assert_eq!(Channel::try_from(0x0E), Ok(Channel::Current));
    }

    #[test]
    fn texts() {
        let shown = [0x00, 0x0B, 0x0E, 0x0F].map(|value| Channel::new(value).unwrap().to_string());
        assert_eq!(
            shown,
            [
                "Primary channel",
                "Channel 0xB",
                "Current channel",
                "System channel"
            ]
        );
        let padded = format!("{:>16}|{:<17.7}|", Channel::Current, Channel::Primary);
        assert_eq!(padded, " Current channel|Primary          |");
    }

    /// Channels compare as their numbers do.
    #[test]
    fn order() {
        let numbers: Vec<u8> = (0..=0xF).filter(|n| Channel::new(*n).is_ok()).collect();
        let mut channels: Vec<Channel> = numbers
            .iter()
            .rev()
            .flat_map(|n| Channel::new(*n))
            .collect();
        channels.sort();
        let sorted: Vec<u8> = channels.into_iter().map(u8::from).collect();
        assert_eq!(sorted, numbers);
    }
}
