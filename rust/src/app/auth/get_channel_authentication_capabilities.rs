//! Get Channel Authentication Capabilities, 38h. Reference: IPMI 2.0, 22.13, Table 22-15.

use super::{AuthType, PrivilegeLevel};
use crate::connection::{Channel, IpmiCommand, Message};
use crate::number::{certain, record, some};
use crate::{sys, Error};

/// Asks which authentication a channel offers for a level. Reference: IPMI 2.0, Table 22-15.
///
/// ```
/// use ghjalvestru::app::auth::{GetChannelAuthenticationCapabilities, PrivilegeLevel};
/// use ghjalvestru::connection::{Channel, Message};
/// use ghjalvestru::Error;
///
/// let command = GetChannelAuthenticationCapabilities::new(Channel::new(1)?, PrivilegeLevel::Administrator);
/// let message: Message = command.into();
/// assert_eq!((message.cmd(), message.data()), (0x38, &[0x81, 0x04][..]));
/// # Ok::<(), Error>(())
/// ```
#[derive(Clone, Copy, Debug, PartialEq, Eq, Hash)]
pub struct GetChannelAuthenticationCapabilities {
    channel_number: Channel,
    privilege_level: PrivilegeLevel,
}

impl GetChannelAuthenticationCapabilities {
    /// The command's number.
    pub const COMMAND: u8 = 0x38;

    /// For this channel and level.
    #[must_use]
    pub fn new(channel_number: Channel, privilege_level: PrivilegeLevel) -> Self {
        Self {
            channel_number,
            privilege_level,
        }
    }
}

impl From<GetChannelAuthenticationCapabilities> for Message {
    fn from(command: GetChannelAuthenticationCapabilities) -> Self {
        let channel = command.channel_number.value();
        let level = command.privilege_level.into();
        let data = record::<2>(|out| sys::capabilities_request(channel, level, out));
        Message::request(GetChannelAuthenticationCapabilities::COMMAND, certain(data))
    }
}

impl IpmiCommand for GetChannelAuthenticationCapabilities {
    type Output = ChannelAuthenticationCapabilities;

    fn parse_success_response(data: &[u8]) -> Result<Self::Output, Error> {
        ChannelAuthenticationCapabilities::parse(data)
    }
}

/// Which authentication a channel offers. Reference: IPMI 2.0, Table 22-15.
///
/// ```
/// use ghjalvestru::app::auth::{AuthType, ChannelAuthenticationCapabilities};
/// use ghjalvestru::Error;
///
/// let offered = ChannelAuthenticationCapabilities::parse(&[0x01, 0x96, 0x04, 0x03, 0x00, 0x00, 0x00, 0x00])?;
/// assert!(offered.md5 && offered.md2 && offered.key && !offered.none);
/// assert!(offered.per_message_authentication_enabled && offered.ipmi2_connections_supported);
/// assert_eq!(offered.best_auth(), Some(AuthType::MD5));
/// # Ok::<(), Error>(())
/// ```
#[derive(Clone, Copy, Debug, PartialEq, Eq, Hash)]
pub struct ChannelAuthenticationCapabilities {
    /// The whole first byte.
    pub channel_number: u8,
    /// Is a vendor's type offered?
    pub oem_proprietary: bool,
    /// Is Key offered?
    pub key: bool,
    /// Is MD5 offered?
    pub md5: bool,
    /// Is MD2 offered?
    pub md2: bool,
    /// Is None offered?
    pub none: bool,
    /// Is the key KG set?
    pub kg_status: bool,
    /// Is each message authenticated?
    pub per_message_authentication_enabled: bool,
    /// Are commands of the user level authenticated?
    pub user_level_authentication_enabled: bool,
    /// Are there users with names?
    pub non_null_usernames_enabled: bool,
    /// Are there users without a name, but with a password?
    pub null_usernames_enabled: bool,
    /// Is there a user without a name and a password?
    pub anonymous_login_enabled: bool,
    /// Does the channel have sessions of IPMI 2.0?
    pub ipmi2_connections_supported: bool,
    /// Does the channel have sessions of IPMI 1.5?
    pub ipmi15_connections_supported: bool,
    /// The vendor of the vendor's type.
    pub oem_id: [u8; 3],
    /// More about the vendor's type.
    pub oem_auxiliary_data: u8,
}

impl ChannelAuthenticationCapabilities {
    /// Reads a response.
    ///
    /// # Errors
    ///
    /// [`Error::NotEnoughData`] below seven bytes, and below eight where bit 7 of the second one is set.
    pub fn parse(data: &[u8]) -> Result<Self, Error> {
        let [channel, oem, key, md5, md2, none, kg, per_message, user_level, non_null, null, anonymous, v2, v15, oem_id @ .., aux] =
            record::<18>(|out| sys::capabilities(data, out))?;
        Ok(Self {
            channel_number: channel,
            oem_proprietary: oem != 0,
            key: key != 0,
            md5: md5 != 0,
            md2: md2 != 0,
            none: none != 0,
            kg_status: kg != 0,
            per_message_authentication_enabled: per_message != 0,
            user_level_authentication_enabled: user_level != 0,
            non_null_usernames_enabled: non_null != 0,
            null_usernames_enabled: null != 0,
            anonymous_login_enabled: anonymous != 0,
            ipmi2_connections_supported: v2 != 0,
            ipmi15_connections_supported: v15 != 0,
            oem_id,
            oem_auxiliary_data: aux,
        })
    }

    /// The strongest of MD5, MD2, Key and None that is offered.
    #[must_use]
    pub fn best_auth(&self) -> Option<AuthType> {
        let offered = [self.key, self.md5, self.md2, self.none];
        let [key, md5, md2, none] = offered.map(u8::from);
        let number = some(sys::best_auth(key, md5, md2, none))?;
        Some(certain(AuthType::try_from(number).map_err(|()| number)))
    }
}

#[cfg(test)]
mod tests {
    use super::*;

    /// P4.
    #[test]
    fn request() {
        let channel = Channel::new(1).unwrap();
        let command =
            GetChannelAuthenticationCapabilities::new(channel, PrivilegeLevel::Administrator);
        let message = Message::from(command);
        assert_eq!(message.data(), [0x81, 0x04]);
        assert_eq!((message.netfn_raw(), message.cmd()), (0x06, 0x38));
    }

    /// P6, and each field.
    #[test]
    fn answers() {
        let given = [0x01, 0x96, 0x04, 0x03, 0x0A, 0x0B, 0x0C, 0x0D];
        let all = ChannelAuthenticationCapabilities::parse(&given).unwrap();
        assert_eq!(
            (all.channel_number, all.oem_id, all.oem_auxiliary_data),
            (1, [10, 11, 12], 13)
        );
        assert!(all.key && all.md5 && all.md2 && !all.none && !all.oem_proprietary);
        assert!(all.per_message_authentication_enabled && all.user_level_authentication_enabled);
        assert!(all.non_null_usernames_enabled && !all.null_usernames_enabled);
        assert!(!all.anonymous_login_enabled && !all.kg_status);
        assert!(all.ipmi2_connections_supported && all.ipmi15_connections_supported);
        assert_eq!(
            ChannelAuthenticationCapabilities::parse(&given[..7]),
            Err(Error::NotEnoughData)
        );
        let short = ChannelAuthenticationCapabilities::parse(&[0x01, 0x16, 0, 10, 11, 12, 13]);
        assert_eq!(
            short.map(|all| (all.oem_id, all.oem_auxiliary_data)),
            Ok(([10, 11, 12], 13))
        );
    }

    #[test]
    fn best_of_all_sixteen() {
        for bits in 0..16u8 {
            let [none, md2, md5, key] = [1, 2, 4, 8].map(|bit| bits & bit != 0);
            let byte = [none, md2, md5].map(u8::from);
            let byte = byte[0] + 2 * byte[1] + 4 * byte[2] + 16 * u8::from(key);
            let all = ChannelAuthenticationCapabilities::parse(&[1, byte, 0, 0, 0, 0, 0]).unwrap();
            let best = match (md5, md2, key, none) {
                (true, ..) => Some(AuthType::MD5),
                (_, true, ..) => Some(AuthType::MD2),
                (_, _, true, _) => Some(AuthType::Key),
                (.., true) => Some(AuthType::None),
                _ => None,
            };
            assert_eq!(all.best_auth(), best);
        }
    }
}
