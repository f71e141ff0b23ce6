//! Authentication: its types and levels, and the commands of a session.

mod activate_session;
mod algorithms;
mod get_channel_authentication_capabilities;
mod get_channel_cipher_suites;
mod get_session_challenge;
pub mod tagged_records;

pub use activate_session::{ActivateSession, BeginSessionInfo};
pub use algorithms::{AuthenticationAlgorithm, ConfidentialityAlgorithm, IntegrityAlgorithm};
pub use get_channel_authentication_capabilities::{
    ChannelAuthenticationCapabilities, GetChannelAuthenticationCapabilities,
};
pub use get_channel_cipher_suites::{
    BySuite, ChannelCipherSuites, ChannelSuites, CipherSuite, GetChannelCipherSuites, Iter,
};
pub use get_session_challenge::{GetSessionChallenge, SessionChallenge};
pub use tagged_records::{Owner, TaggedRecord, TaggedRecords};

use crate::number::{accepted, certain, show};
use crate::sys;
use std::cmp::Ordering;
use std::fmt;

/// An authentication type. Its text is its name. Reference: IPMI 2.0, 13.6.
///
/// Types do not compare by `<`: the order of their numbers is not that of their strength.
///
/// ```
/// use ghjalvestru::app::auth::AuthType;
/// use std::cmp::Ordering;
///
/// assert_eq!(AuthType::try_from(0x12), Ok(AuthType::MD5));
/// assert_eq!(AuthType::try_from(0x03), Err(()));
/// assert_eq!(AuthType::MD2.compare_strength(&AuthType::Key), Ordering::Greater);
/// assert_eq!(AuthType::MD5.to_string(), "MD5");
/// ```
#[derive(Clone, Copy, Debug, PartialEq, Eq, Hash)]
#[allow(missing_docs)] // The standard's names.
pub enum AuthType {
    None,
    MD2,
    MD5,
    Key,
}

impl AuthType {
    /// [`Ordering::Greater`] where this type is the stronger one. Weakest first: None, Key, MD2, MD5.
    #[must_use]
    pub fn compare_strength(&self, other: &Self) -> Ordering {
        let number = sys::compare_strength((*self).into(), (*other).into());
        certain(accepted(number)).cmp(&1)
    }
}

impl TryFrom<u8> for AuthType {
    type Error = ();

    /// By the low nibble: the high one is reserved.
    fn try_from(value: u8) -> Result<Self, ()> {
        Ok(match value % 0x10 {
            0x00 => Self::None,
            0x01 => Self::MD2,
            0x02 => Self::MD5,
            0x04 => Self::Key,
            _ => return Err(()),
        })
    }
}

impl From<AuthType> for u8 {
    fn from(auth_type: AuthType) -> Self {
        match auth_type {
            AuthType::None => 0x00,
            AuthType::MD2 => 0x01,
            AuthType::MD5 => 0x02,
            AuthType::Key => 0x04,
        }
    }
}

impl fmt::Display for AuthType {
    fn fmt(&self, f: &mut fmt::Formatter<'_>) -> fmt::Result {
        show(f, |out| sys::auth_type_name((*self).into(), out))
    }
}

/// The privilege level of a session. Reference: IPMI 2.0, 6.8.
///
/// ```
/// use ghjalvestru::app::auth::PrivilegeLevel;
///
/// assert_eq!(PrivilegeLevel::try_from(0xF4), Ok(PrivilegeLevel::Administrator));
/// assert_eq!(PrivilegeLevel::try_from(0x06), Err(()));
/// assert!(PrivilegeLevel::User < PrivilegeLevel::Operator);
/// ```
#[derive(Clone, Copy, Debug, PartialEq, Eq, PartialOrd, Ord, Hash)]
#[allow(missing_docs)] // The standard's names; the last is spelt as in the crate ipmi-rs-core.
pub enum PrivilegeLevel {
    Callback,
    User,
    Operator,
    Administrator,
    OemProperietary,
}

impl TryFrom<u8> for PrivilegeLevel {
    type Error = ();

    /// By the low nibble.
    fn try_from(value: u8) -> Result<Self, ()> {
        Ok(match value % 0x10 {
            1 => Self::Callback,
            2 => Self::User,
            3 => Self::Operator,
            4 => Self::Administrator,
            5 => Self::OemProperietary,
            _ => return Err(()),
        })
    }
}

impl From<PrivilegeLevel> for u8 {
    fn from(level: PrivilegeLevel) -> Self {
        match level {
            PrivilegeLevel::Callback => 1,
            PrivilegeLevel::User => 2,
            PrivilegeLevel::Operator => 3,
            PrivilegeLevel::Administrator => 4,
            PrivilegeLevel::OemProperietary => 5,
        }
    }
}

#[cfg(test)]
mod tests {
    use super::*;

    #[test]
    fn numbers() {
        for value in 0..=u8::MAX {
            let nibble = value & 0x0F;
            let named = |numbers: &[u8]| numbers.contains(&nibble).then_some(nibble).ok_or(());
            let auth_type = AuthType::try_from(value);
            assert_eq!(auth_type.map(u8::from), named(&[0, 1, 2, 4]));
            if let Ok(auth_type) = auth_type {
                assert_eq!(auth_type.to_string(), format!("{auth_type:?}"));
            }
            let level = PrivilegeLevel::try_from(value);
            assert_eq!(level.map(u8::from), named(&[1, 2, 3, 4, 5]));
        }
    }

    #[test]
    fn strength() {
        let order = [AuthType::None, AuthType::Key, AuthType::MD2, AuthType::MD5];
        for (i, one) in order.iter().enumerate() {
            for (j, other) in order.iter().enumerate() {
                assert_eq!(one.compare_strength(other), i.cmp(&j));
            }
        }
    }
}
