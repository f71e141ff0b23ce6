//! Activate Session, 3Ah. Reference: IPMI 2.0, 22.17.

use super::{AuthType, PrivilegeLevel};
use crate::connection::{IpmiCommand, Message};
use crate::number::{certain, record};
use crate::sys::{self, CHALLENGE};
use crate::Error;
use std::num::NonZeroU32;

/// Begins a session. Reference: IPMI 2.0, 22.17.
///
/// ```
/// use ghjalvestru::app::auth::{ActivateSession, AuthType, PrivilegeLevel, SessionChallenge};
/// use ghjalvestru::connection::Message;
/// use ghjalvestru::Error;
///
/// fn activate(challenge: &SessionChallenge) -> Message {
///     let command = ActivateSession {
///         auth_type: AuthType::MD5,
///         maximum_privilege_level: PrivilegeLevel::Operator,
///         challenge_string: challenge.challenge_string,
///         initial_sequence_number: 1,
///     };
///     command.into()
/// }
///
/// let message = activate(&SessionChallenge::parse(&[7; 20])?);
/// assert_eq!((message.cmd(), message.data().len()), (0x3A, 22));
/// # Ok::<(), Error>(())
/// ```
#[derive(Clone, Copy, Debug, PartialEq, Eq, Hash)]
pub struct ActivateSession {
    /// The authentication type.
    pub auth_type: AuthType,
    /// The highest level that is asked for.
    pub maximum_privilege_level: PrivilegeLevel,
    /// The challenge.
    pub challenge_string: [u8; CHALLENGE],
    /// The first sequence number of what the controller sends.
    pub initial_sequence_number: u32,
}

impl ActivateSession {
    /// The command's number.
    pub const COMMAND: u8 = 0x3A;
}

impl From<ActivateSession> for Message {
    fn from(command: ActivateSession) -> Self {
        let auth_type = command.auth_type.into();
        let level = command.maximum_privilege_level.into();
        let challenge = &command.challenge_string;
        let sequence = command.initial_sequence_number;
        let data =
            record::<22>(|out| sys::activation_request(auth_type, level, challenge, sequence, out));
        Message::request(ActivateSession::COMMAND, certain(data))
    }
}

impl IpmiCommand for ActivateSession {
    type Output = BeginSessionInfo;

    fn parse_success_response(data: &[u8]) -> Result<BeginSessionInfo, Error> {
        BeginSessionInfo::parse(data)
    }
}

/// A session that was begun. Reference: IPMI 2.0, 22.17.
///
/// ```
/// use ghjalvestru::app::auth::{AuthType, BeginSessionInfo, PrivilegeLevel};
/// use ghjalvestru::Error;
///
/// let begun = BeginSessionInfo::parse(&[0x02, 0x01, 0x00, 0x00, 0x00, 0x05, 0x00, 0x00, 0x00, 0x04])?;
/// assert_eq!((begun.auth_type, begun.session_id.get()), (AuthType::MD5, 1));
/// assert_eq!(begun.initial_sequence_number, 5);
/// assert_eq!(begun.maximum_privilege_level, PrivilegeLevel::Administrator);
/// # Ok::<(), Error>(())
/// ```
#[derive(Clone, Copy, Debug, PartialEq, Eq, Hash)]
pub struct BeginSessionInfo {
    /// The authentication type.
    pub auth_type: AuthType,
    /// The session's number.
    pub session_id: NonZeroU32,
    /// The first sequence number of what is sent to the controller.
    pub initial_sequence_number: u32,
    /// The highest level of the session.
    pub maximum_privilege_level: PrivilegeLevel,
}

impl BeginSessionInfo {
    /// Reads a response. Type and level count by the low nibble of their byte.
    ///
    /// # Errors
    ///
    /// [`Error::NotEnoughData`] below ten bytes, then [`Error::InvalidAuthType`] with the whole byte,
    /// [`Error::InvalidZeroSession`], [`Error::InvalidPrivilegeLevel`] with the whole byte.
    pub fn parse(data: &[u8]) -> Result<Self, Error> {
        let [auth_type, i, j, k, l, p, q, r, s, level] = record(|out| sys::activation(data, out))?;
        let id = u32::from_le_bytes([i, j, k, l]);
        Ok(Self {
            auth_type: AuthType::try_from(auth_type)
                .map_err(|()| Error::InvalidAuthType(auth_type))?,
            session_id: NonZeroU32::new(id).ok_or(Error::InvalidZeroSession)?,
            initial_sequence_number: u32::from_le_bytes([p, q, r, s]),
            maximum_privilege_level: PrivilegeLevel::try_from(level)
                .map_err(|()| Error::InvalidPrivilegeLevel(level))?,
        })
    }
}

#[cfg(test)]
mod tests {
    use super::*;

    #[test]
    fn request() {
        let message = Message::from(ActivateSession {
            auth_type: AuthType::MD2,
            maximum_privilege_level: PrivilegeLevel::Operator,
            challenge_string: [9; 16],
            initial_sequence_number: 0x04030201,
        });
        assert_eq!(message.data()[..2], [1, 3]);
        assert_eq!(message.data()[2..18], [9; 16]);
        assert_eq!(message.data()[18..], [1, 2, 3, 4]);
        assert_eq!((message.netfn_raw(), message.cmd()), (0x06, 0x3A));
    }

    /// P8 and P9; the reserved bits of the type's byte.
    #[test]
    fn answers() {
        let mut data = [2, 1, 0, 0, 0, 5, 0, 0, 0, 0xF4];
        let begun = BeginSessionInfo {
            auth_type: AuthType::MD5,
            session_id: NonZeroU32::MIN,
            initial_sequence_number: 5,
            maximum_privilege_level: PrivilegeLevel::Administrator,
        };
        assert_eq!(BeginSessionInfo::parse(&data), Ok(begun));
        data[0] = 0x12;
        assert_eq!(BeginSessionInfo::parse(&data), Ok(begun));
        assert_eq!(
            BeginSessionInfo::parse(&data[..9]),
            Err(Error::NotEnoughData)
        );
        data[9] = 0x06;
        assert_eq!(
            BeginSessionInfo::parse(&data),
            Err(Error::InvalidPrivilegeLevel(0x06))
        );
        data[1] = 0;
        assert_eq!(
            BeginSessionInfo::parse(&data),
            Err(Error::InvalidZeroSession)
        );
        data[0] = 3;
        assert_eq!(
            BeginSessionInfo::parse(&data),
            Err(Error::InvalidAuthType(3))
        );
        data[0] = 0x13;
        assert_eq!(
            BeginSessionInfo::parse(&data),
            Err(Error::InvalidAuthType(0x13))
        );
    }
}
