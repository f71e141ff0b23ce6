//! Get Channel Access, 41h. Reference: IPMI 2.0, 22.23, Table 22-28.

use crate::connection::{Channel, IpmiCommand, Message};
use crate::number::{certain, record, show};
use crate::sys::{self, ACCESS};
use crate::Error;
use std::fmt;

/// Asks for the access settings of a channel. Reference: IPMI 2.0, Table 22-28.
///
/// ```
/// use ghjalvestru::app::GetChannelAccess;
/// use ghjalvestru::connection::{Channel, Message};
///
/// let message: Message = GetChannelAccess::non_volatile(Channel::Current).into();
/// assert_eq!((message.cmd(), message.data()), (0x41, &[0x0E, 0x40][..]));
/// ```
#[derive(Clone, Copy, Debug, PartialEq, Eq, Hash)]
pub struct GetChannelAccess {
    channel: Channel,
    access_type: ChannelAccessType,
}

impl GetChannelAccess {
    /// The command's number.
    pub const COMMAND: u8 = 0x41;

    /// For the settings of this type.
    #[must_use]
    pub fn new(channel: Channel, access_type: ChannelAccessType) -> Self {
        Self {
            channel,
            access_type,
        }
    }

    /// For the stored settings.
    #[must_use]
    pub fn non_volatile(channel: Channel) -> Self {
        Self::new(channel, ChannelAccessType::NonVolatile)
    }

    /// For the settings in use.
    #[must_use]
    pub fn volatile(channel: Channel) -> Self {
        Self::new(channel, ChannelAccessType::Volatile)
    }
}

impl From<GetChannelAccess> for Message {
    fn from(command: GetChannelAccess) -> Self {
        let kind = match command.access_type {
            ChannelAccessType::NonVolatile => 1,
            ChannelAccessType::Volatile => 2,
        };
        let channel = command.channel.value();
        let data = record::<2>(|out| sys::access_request(channel, kind, out));
        Message::request(GetChannelAccess::COMMAND, certain(data))
    }
}

impl IpmiCommand for GetChannelAccess {
    type Output = ChannelAccess;

    fn parse_success_response(data: &[u8]) -> Result<ChannelAccess, Error> {
        ChannelAccess::parse(data)
    }
}

/// Which settings are asked for.
#[derive(Clone, Copy, Debug, PartialEq, Eq, PartialOrd, Ord, Hash)]
pub enum ChannelAccessType {
    /// The stored ones.
    NonVolatile,
    /// Those in use.
    Volatile,
}

/// The access settings of a channel. A flag that is set says DISABLED. Reference: IPMI 2.0, Table 22-28.
///
/// ```
/// use ghjalvestru::app::{ChannelAccess, ChannelPrivilegeLevel};
/// use ghjalvestru::Error;
///
/// let access = ChannelAccess::parse(&[0x22, 0x04])?;
/// assert_eq!(access.access_mode.to_string(), "Always Available");
/// assert!(access.alerting_disabled && !access.per_msg_auth_disabled && !access.user_level_auth_disabled);
/// assert_eq!(access.privilege_level_limit, ChannelPrivilegeLevel::Administrator);
/// assert_eq!(ChannelAccess::parse(&[0x22]), Err(Error::NotEnoughData));
/// # Ok::<(), Error>(())
/// ```
#[derive(Clone, Copy, Debug, PartialEq, Eq, Hash)]
pub struct ChannelAccess {
    /// When the channel can be used.
    pub access_mode: ChannelAccessMode,
    /// Are alerts off?
    pub alerting_disabled: bool,
    /// Is authentication of each message off?
    pub per_msg_auth_disabled: bool,
    /// Is authentication of commands of the user level off?
    pub user_level_auth_disabled: bool,
    /// The highest level that can be had on this channel.
    pub privilege_level_limit: ChannelPrivilegeLevel,
}

impl ChannelAccess {
    /// Reads a response.
    ///
    /// # Errors
    ///
    /// [`Error::NotEnoughData`] below two bytes.
    pub fn parse(data: &[u8]) -> Result<Self, Error> {
        record(|out| sys::access(data, out)).map(Self::from_record)
    }

    /// From a record as C has it.
    pub(super) fn from_record([mode, alerting, per_msg, user_level, limit]: [u8; ACCESS]) -> Self {
        Self {
            access_mode: mode.into(),
            alerting_disabled: alerting != 0,
            per_msg_auth_disabled: per_msg != 0,
            user_level_auth_disabled: user_level != 0,
            privilege_level_limit: limit.into(),
        }
    }

    /// As C has it. `Unknown` of a number that has a name becomes that number, as the named one does.
    pub(super) fn to_record(self) -> [u8; ACCESS] {
        [
            self.access_mode.into(),
            self.alerting_disabled.into(),
            self.per_msg_auth_disabled.into(),
            self.user_level_auth_disabled.into(),
            self.privilege_level_limit.into(),
        ]
    }

    /// Is the channel disabled?
    #[must_use]
    pub fn is_disabled(&self) -> bool {
        self.access_mode == ChannelAccessMode::Disabled
    }
}

/// When a channel can be used. Reference: IPMI 2.0, 6.6, Table 6-4.
#[derive(Clone, Copy, Debug, PartialEq, Eq, PartialOrd, Ord, Hash)]
pub enum ChannelAccessMode {
    /// Never.
    Disabled,
    /// Until the operating system is loaded.
    PreBootOnly,
    /// Always.
    AlwaysAvailable,
    /// Always, and shared with the system's own use.
    Shared,
    /// A number without a name.
    Unknown(u8),
}

impl From<u8> for ChannelAccessMode {
    fn from(value: u8) -> Self {
        match value {
            0x00 => Self::Disabled,
            0x01 => Self::PreBootOnly,
            0x02 => Self::AlwaysAvailable,
            0x03 => Self::Shared,
            value => Self::Unknown(value),
        }
    }
}

impl From<ChannelAccessMode> for u8 {
    fn from(mode: ChannelAccessMode) -> Self {
        match mode {
            ChannelAccessMode::Disabled => 0x00,
            ChannelAccessMode::PreBootOnly => 0x01,
            ChannelAccessMode::AlwaysAvailable => 0x02,
            ChannelAccessMode::Shared => 0x03,
            ChannelAccessMode::Unknown(value) => value,
        }
    }
}

impl fmt::Display for ChannelAccessMode {
    fn fmt(&self, f: &mut fmt::Formatter<'_>) -> fmt::Result {
        show(f, |out| sys::mode_text((*self).into(), out))
    }
}

/// The highest privilege level of a channel. Reference: IPMI 2.0, Table 22-28.
#[derive(Clone, Copy, Debug, PartialEq, Eq, PartialOrd, Ord, Hash)]
pub enum ChannelPrivilegeLevel {
    /// Not to be used.
    Reserved,
    /// Callback.
    Callback,
    /// User.
    User,
    /// Operator.
    Operator,
    /// Administrator.
    Administrator,
    /// The vendor's own.
    Oem,
    /// A number without a name.
    Unknown(u8),
}

impl From<u8> for ChannelPrivilegeLevel {
    fn from(value: u8) -> Self {
        match value {
            0x00 => Self::Reserved,
            0x01 => Self::Callback,
            0x02 => Self::User,
            0x03 => Self::Operator,
            0x04 => Self::Administrator,
            0x05 => Self::Oem,
            value => Self::Unknown(value),
        }
    }
}

impl From<ChannelPrivilegeLevel> for u8 {
    fn from(level: ChannelPrivilegeLevel) -> Self {
        match level {
            ChannelPrivilegeLevel::Reserved => 0x00,
            ChannelPrivilegeLevel::Callback => 0x01,
            ChannelPrivilegeLevel::User => 0x02,
            ChannelPrivilegeLevel::Operator => 0x03,
            ChannelPrivilegeLevel::Administrator => 0x04,
            ChannelPrivilegeLevel::Oem => 0x05,
            ChannelPrivilegeLevel::Unknown(value) => value,
        }
    }
}

impl fmt::Display for ChannelPrivilegeLevel {
    fn fmt(&self, f: &mut fmt::Formatter<'_>) -> fmt::Result {
        show(f, |out| sys::limit_text((*self).into(), out))
    }
}

#[cfg(test)]
mod tests {
    use super::*;

    /// P5, and the other type.
    #[test]
    fn requests() {
        let message = Message::from(GetChannelAccess::non_volatile(Channel::Current));
        assert_eq!(message.data(), [0x0E, 0x40]);
        assert_eq!((message.netfn_raw(), message.cmd()), (0x06, 0x41));
        let message = Message::from(GetChannelAccess::volatile(Channel::Primary));
        assert_eq!(message.data(), [0x00, 0x80]);
    }

    #[test]
    fn a_set_bit_means_disabled() {
        let access = ChannelAccess::parse(&[0x22, 0x04]).unwrap();
        assert!(access.alerting_disabled);
        assert!(!access.per_msg_auth_disabled && !access.user_level_auth_disabled);
        assert_eq!(access.access_mode, ChannelAccessMode::AlwaysAvailable);
        assert_eq!(
            access.privilege_level_limit,
            ChannelPrivilegeLevel::Administrator
        );
        assert!(!access.is_disabled());
        assert!(ChannelAccess::parse(&[0x00, 0x04]).unwrap().is_disabled());
        assert_eq!(ChannelAccess::parse(&[0x22]), Err(Error::NotEnoughData));
    }

    #[test]
    fn numbers_and_texts() {
        for value in 0..=u8::MAX {
            let mode = ChannelAccessMode::from(value);
            let limit = ChannelPrivilegeLevel::from(value);
            assert_eq!((u8::from(mode), u8::from(limit)), (value, value));
            let unknown = format!("Unknown (0x{value:02X})");
            assert_eq!(mode.to_string() == unknown, value > 3);
            assert_eq!(limit.to_string() == unknown, value > 5);
        }
        assert_eq!(ChannelAccessMode::PreBootOnly.to_string(), "Pre-boot Only");
        assert_eq!(ChannelPrivilegeLevel::Oem.to_string(), "OEM");
        let padded = format!(
            "{:>5}|{:*^9}",
            ChannelPrivilegeLevel::Oem,
            ChannelAccessMode::Shared
        );
        assert_eq!(padded, "  OEM|*Shared**");
    }
}
