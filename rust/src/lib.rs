//! Reads the channel and session fields in answers from IPMI management controllers.
//!
//! All answers come from proved code, through its C functions ([`sys`]); this crate turns their numbers and records into
//! types. Types, variants and methods have the names of the crate ipmi-rs-core 0.6.0, in modules of the same names;
//! `docs/MIGRATING.md` says what differs. Every input is accepted, or refused by an [`Error`]; none panics. There is no state
//! but what is lent or held: all is `Send` and `Sync`. Tables and sections in the pages are those of IPMI 2.0; `CHANGELOG.md`
//! says what each version changed.
//!
//! ```
//! use ghjalvestru::app::auth::{AuthType, ChannelAuthenticationCapabilities, CipherSuite};
//! use ghjalvestru::app::{ChannelAccess, ChannelInfo};
//! use ghjalvestru::connection::Channel;
//! use ghjalvestru::{ChannelCollector, Error};
//!
//! let info = ChannelInfo::parse(&[0x01, 0x04, 0x01, 0x81, 0xF2, 0x1B, 0x00, 0x00, 0x00])?;
//! assert_eq!(info.channel.to_string(), "Channel 0x1");
//! assert_eq!(info.medium_type.to_string(), "802.3 LAN");
//! assert_eq!((info.active_sessions, info.vendor_id), (1, 7154));
//!
//! // A set bit says that something is off.
//! let access = ChannelAccess::parse(&[0x22, 0x04])?;
//! assert_eq!(access.access_mode.to_string(), "Always Available");
//! assert!(access.alerting_disabled && !access.per_msg_auth_disabled);
//!
//! let offered = ChannelAuthenticationCapabilities::parse(&[0x01, 0x96, 0x04, 0x03, 0x00, 0x00, 0x00, 0x00])?;
//! assert_eq!(offered.best_auth(), Some(AuthType::MD5));
//!
//! // A controller's answer, as it came: its channel, then the list's bytes.
//! let mut collector = ChannelCollector::new(Channel::new(1)?);
//! collector.answer(0, &[0x01, 0xC0, 0x03, 0x01, 0x41, 0x81])?;
//! assert_eq!(collector.suites()?, [CipherSuite::Id3]);
//!
//! assert_eq!(ChannelAccess::parse(&[0x22]), Err(Error::NotEnoughData));
//! # Ok::<(), Error>(())
//! ```

pub mod app;
mod channel_collector;
mod collector;
pub mod connection;
mod error;
mod number;
pub mod sys;

pub use channel_collector::ChannelCollector;
pub use collector::{Collector, Status};
pub use error::Error;

/// Its lines are tests.
#[cfg(doctest)]
#[doc = include_str!("../../docs/MIGRATING.md")]
struct Migrating;

#[cfg(test)]
mod tests {
    use super::*;

    /// As the first page says.
    #[test]
    fn all_may_go_to_other_threads() {
        fn may_go<T: Send + Sync>() {}
        may_go::<(Collector, ChannelCollector, Error, connection::Message)>();
        may_go::<(app::auth::TaggedRecords<'_>, app::auth::Iter<'_>)>();
    }
}
