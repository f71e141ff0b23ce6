//! Get Session Challenge, 39h. Reference: IPMI 2.0, 22.16.

use super::AuthType;
use crate::connection::{IpmiCommand, Message};
use crate::number::{certain, record};
use crate::sys::{self, CHALLENGE};
use crate::Error;
use std::num::NonZeroU32;

/// How many bytes a user name has, zeros behind it among them.
const NAME: usize = 16;

/// Asks for a challenge, by which a session is begun. Reference: IPMI 2.0, 22.16.
///
/// ```
/// use ghjalvestru::app::auth::{AuthType, GetSessionChallenge};
/// use ghjalvestru::connection::Message;
/// use ghjalvestru::Error;
///
/// let message: Message = GetSessionChallenge::new(AuthType::MD5, Some("admin"))?.into();
/// assert_eq!((message.cmd(), message.data()), (0x39, &b"\x02admin\0\0\0\0\0\0\0\0\0\0\0"[..]));
/// assert_eq!(GetSessionChallenge::new(AuthType::MD5, Some("seventeen letters")), Err(Error::LongName));
/// # Ok::<(), Error>(())
/// ```
#[derive(Clone, Copy, Debug, PartialEq, Eq, Hash)]
pub struct GetSessionChallenge {
    auth_type: AuthType,
    username: [u8; NAME],
}

impl GetSessionChallenge {
    /// The command's number.
    pub const COMMAND: u8 = 0x39;

    /// For this type and user.
    ///
    /// # Errors
    ///
    /// [`Error::LongName`] above sixteen bytes.
    pub fn new(auth_type: AuthType, username: Option<&str>) -> Result<Self, Error> {
        let name = username.unwrap_or_default().as_bytes();
        let [_, username @ ..] = request(auth_type, name)?;
        Ok(Self {
            auth_type,
            username,
        })
    }

    /// The authentication type.
    #[must_use]
    pub fn auth_type(&self) -> AuthType {
        self.auth_type
    }

    /// The name, up to its first zero, since the command pads it with zeros.
    #[must_use]
    pub fn username(&self) -> &str {
        let mut parts = self.username.split(|&byte| byte == 0);
        // It was a `str`, and a zero is a character by itself.
        certain(std::str::from_utf8(parts.next().unwrap_or_default()))
    }
}

fn request(auth_type: AuthType, name: &[u8]) -> Result<[u8; 1 + NAME], Error> {
    record(|out| sys::challenge_request(auth_type.into(), name, out))
}

impl From<GetSessionChallenge> for Message {
    fn from(command: GetSessionChallenge) -> Self {
        let data = request(command.auth_type, &command.username);
        Message::request(GetSessionChallenge::COMMAND, certain(data))
    }
}

impl IpmiCommand for GetSessionChallenge {
    type Output = SessionChallenge;

    fn parse_success_response(data: &[u8]) -> Result<SessionChallenge, Error> {
        SessionChallenge::parse(data)
    }
}

/// A challenge. Reference: IPMI 2.0, 22.16.
///
/// ```
/// use ghjalvestru::app::auth::SessionChallenge;
/// use ghjalvestru::Error;
///
/// let challenge = SessionChallenge::parse(&[7; 20])?;
/// assert_eq!((challenge.temporary_session_id.get(), challenge.challenge_string), (0x07070707, [7; 16]));
/// assert_eq!(SessionChallenge::parse(&[0; 20]), Err(Error::InvalidZeroSession));
/// # Ok::<(), Error>(())
/// ```
#[derive(Clone, Copy, Debug, PartialEq, Eq, Hash)]
pub struct SessionChallenge {
    /// The session's number until it is begun.
    pub temporary_session_id: NonZeroU32,
    /// What is sent back.
    pub challenge_string: [u8; CHALLENGE],
}

impl SessionChallenge {
    /// Reads a response.
    ///
    /// # Errors
    ///
    /// [`Error::NotEnoughData`] where it is not twenty bytes, then [`Error::InvalidZeroSession`].
    pub fn parse(data: &[u8]) -> Result<Self, Error> {
        let [a, b, c, d, challenge_string @ ..] = record::<20>(|out| sys::challenge(data, out))?;
        let id = u32::from_le_bytes([a, b, c, d]);
        Ok(Self {
            temporary_session_id: NonZeroU32::new(id).ok_or(Error::InvalidZeroSession)?,
            challenge_string,
        })
    }
}

#[cfg(test)]
mod tests {
    use super::*;

    #[test]
    fn requests() {
        let command = GetSessionChallenge::new(AuthType::MD5, Some("ab")).unwrap();
        assert_eq!(
            (command.auth_type(), command.username()),
            (AuthType::MD5, "ab")
        );
        let message = Message::from(command);
        assert_eq!(message.data(), *b"\x02ab\0\0\0\0\0\0\0\0\0\0\0\0\0\0");
        assert_eq!((message.netfn_raw(), message.cmd()), (0x06, 0x39));

        let nobody = Message::from(GetSessionChallenge::new(AuthType::None, None).unwrap());
        assert_eq!(nobody.data(), [0; 17]);
        let sixteen = GetSessionChallenge::new(AuthType::Key, Some("0123456789abcdef")).unwrap();
        assert_eq!(sixteen.username(), "0123456789abcdef");
        let cut = GetSessionChallenge::new(AuthType::Key, Some("a\0b")).unwrap();
        assert_eq!(cut.username(), "a");
        assert_eq!(
            GetSessionChallenge::new(AuthType::Key, Some("0123456789abcdefg")),
            Err(Error::LongName)
        );
    }

    /// P7.
    #[test]
    fn answers() {
        let mut data = [7; 21];
        assert_eq!(SessionChallenge::parse(&data), Err(Error::NotEnoughData));
        data[..4].copy_from_slice(&[4, 3, 2, 1]);
        let challenge = SessionChallenge::parse(&data[..20]).unwrap();
        assert_eq!(challenge.temporary_session_id.get(), 0x01020304);
        assert_eq!(challenge.challenge_string, [7; 16]);
        data[..4].fill(0);
        assert_eq!(
            SessionChallenge::parse(&data[..20]),
            Err(Error::InvalidZeroSession)
        );
    }
}
