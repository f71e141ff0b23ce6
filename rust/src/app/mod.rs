//! The commands of the network function App.

pub mod auth;
pub mod get_channel_access;
pub mod get_channel_info;
pub mod set_channel_access;

pub use get_channel_access::{
    ChannelAccess, ChannelAccessMode, ChannelAccessType, ChannelPrivilegeLevel, GetChannelAccess,
};
pub use get_channel_info::{
    AuxChannelInfo, ChannelInfo, ChannelMediumType, ChannelProtocolType, ChannelSessionSupport,
    GetChannelInfo,
};
pub use set_channel_access::{AccessPair, ChannelSettings, SetChannelAccess};

#[cfg(test)]
mod tests {
    use super::auth::*;
    use super::*;
    use crate::connection::APP;

    /// The proved sources have the same numbers under the same names.
    #[test]
    fn numbers() {
        macro_rules! source {
            ($path:literal) => {
                include_str!(concat!("../../../crates/", $path, ".rt"))
            };
        }
        let commands = [
            (
                GetChannelAuthenticationCapabilities::COMMAND,
                source!("auth/src/get_channel_authentication_capabilities"),
            ),
            (
                GetSessionChallenge::COMMAND,
                source!("challenge/src/get_session_challenge"),
            ),
            (
                ActivateSession::COMMAND,
                source!("activation/src/activate_session"),
            ),
            (
                SetChannelAccess::COMMAND,
                source!("set_access/src/set_channel_access"),
            ),
            (
                GetChannelAccess::COMMAND,
                source!("access/src/get_channel_access"),
            ),
            (
                GetChannelInfo::COMMAND,
                source!("info/src/get_channel_info"),
            ),
            (
                GetChannelCipherSuites::COMMAND,
                source!("suites/src/get_channel_cipher_suites"),
            ),
        ];
        for (number, source) in commands {
            assert!(source.contains(&format!("pub const COMMAND: u8 = 0x{number:02X};")));
        }
        let base = source!("base/src/connection");
        assert!(base.contains(&format!("pub const APP: u8 = 0x{APP:02X};")));
    }
}
