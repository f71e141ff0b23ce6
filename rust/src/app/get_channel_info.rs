//! Get Channel Info, 42h. Reference: IPMI 2.0, 22.24, Table 22-29.

use crate::connection::{Channel, IpmiCommand, Message};
use crate::number::{certain, record, show};
use crate::{sys, Error};
use std::fmt;

/// Asks what a channel is. Reference: IPMI 2.0, Table 22-29.
///
/// ```
/// use ghjalvestru::app::GetChannelInfo;
/// use ghjalvestru::connection::{Channel, Message};
///
/// let message: Message = GetChannelInfo::new(Channel::System).into();
/// assert_eq!((message.cmd(), message.data()), (0x42, &[0x0F][..]));
/// ```
#[derive(Clone, Copy, Debug, PartialEq, Eq, Hash)]
pub struct GetChannelInfo {
    channel: Channel,
}

impl GetChannelInfo {
    /// The command's number.
    pub const COMMAND: u8 = 0x42;

    /// For this channel.
    #[must_use]
    pub fn new(channel: Channel) -> Self {
        Self { channel }
    }
}

impl From<GetChannelInfo> for Message {
    fn from(command: GetChannelInfo) -> Self {
        let data = record::<1>(|out| sys::info_request(command.channel.value(), out));
        Message::request(GetChannelInfo::COMMAND, certain(data))
    }
}

impl IpmiCommand for GetChannelInfo {
    type Output = ChannelInfo;

    fn parse_success_response(data: &[u8]) -> Result<ChannelInfo, Error> {
        ChannelInfo::parse(data)
    }
}

/// What a channel is. Reference: IPMI 2.0, Table 22-29.
///
/// ```
/// use ghjalvestru::app::{ChannelInfo, ChannelMediumType};
/// use ghjalvestru::Error;
///
/// let info = ChannelInfo::parse(&[0x01, 0x04, 0x01, 0x81, 0xF2, 0x1B, 0x00, 0x00, 0x00])?;
/// assert_eq!(info.medium_type, ChannelMediumType::Lan802_3);
/// assert_eq!(info.session_support.to_string(), "Multi-session");
/// assert_eq!((info.active_sessions, info.vendor_id), (1, 7154));
/// # Ok::<(), Error>(())
/// ```
#[derive(Clone, Copy, Debug, PartialEq, Eq, Hash)]
pub struct ChannelInfo {
    /// Which channel it is.
    pub channel: Channel,
    /// What it runs over.
    pub medium_type: ChannelMediumType,
    /// What is spoken on it.
    pub protocol_type: ChannelProtocolType,
    /// Which sessions it has.
    pub session_support: ChannelSessionSupport,
    /// How many sessions there are now.
    pub active_sessions: u8,
    /// Who defined the protocol.
    pub vendor_id: u32,
    /// More about the channel.
    pub aux_info: AuxChannelInfo,
}

impl ChannelInfo {
    /// Reads a response.
    ///
    /// # Errors
    ///
    /// [`Error::NotEnoughData`] below nine bytes, and where there is no such channel.
    pub fn parse(data: &[u8]) -> Result<Self, Error> {
        let [channel, medium, protocol, support, active, a, b, c, d, byte1, byte2] =
            record(|out| sys::info(data, out))?;
        Ok(Self {
            channel: Channel::new(channel)?,
            medium_type: medium.into(),
            protocol_type: protocol.into(),
            session_support: support.into(),
            active_sessions: active,
            vendor_id: u32::from_le_bytes([a, b, c, d]),
            aux_info: AuxChannelInfo { byte1, byte2 },
        })
    }
}

/// The two auxiliary bytes.
#[derive(Clone, Copy, Debug, PartialEq, Eq, PartialOrd, Ord, Hash)]
pub struct AuxChannelInfo {
    /// The first.
    pub byte1: u8,
    /// The second.
    pub byte2: u8,
}

/// What a channel runs over. Reference: IPMI 2.0, 6.5, Table 6-3.
#[derive(Clone, Copy, Debug, PartialEq, Eq, PartialOrd, Ord, Hash)]
#[allow(missing_docs)] // The standard's names.
pub enum ChannelMediumType {
    Reserved,
    Ipmb,
    IcmbV1_0,
    IcmbV0_9,
    Lan802_3,
    AsynchSerialModem,
    OtherLan,
    PciSmbus,
    SmbusV1_0,
    SmbusV2_0,
    Usb1X,
    Usb2X,
    SystemInterface,
    Oem(u8),
    ReservedValue(u8),
}

impl From<u8> for ChannelMediumType {
    fn from(value: u8) -> Self {
        match value {
            0x00 => Self::Reserved,
            0x01 => Self::Ipmb,
            0x02 => Self::IcmbV1_0,
            0x03 => Self::IcmbV0_9,
            0x04 => Self::Lan802_3,
            0x05 => Self::AsynchSerialModem,
            0x06 => Self::OtherLan,
            0x07 => Self::PciSmbus,
            0x08 => Self::SmbusV1_0,
            0x09 => Self::SmbusV2_0,
            0x0A => Self::Usb1X,
            0x0B => Self::Usb2X,
            0x0C => Self::SystemInterface,
            0x60..=0x7F => Self::Oem(value),
            _ => Self::ReservedValue(value),
        }
    }
}

impl From<ChannelMediumType> for u8 {
    fn from(medium: ChannelMediumType) -> Self {
        match medium {
            ChannelMediumType::Reserved => 0x00,
            ChannelMediumType::Ipmb => 0x01,
            ChannelMediumType::IcmbV1_0 => 0x02,
            ChannelMediumType::IcmbV0_9 => 0x03,
            ChannelMediumType::Lan802_3 => 0x04,
            ChannelMediumType::AsynchSerialModem => 0x05,
            ChannelMediumType::OtherLan => 0x06,
            ChannelMediumType::PciSmbus => 0x07,
            ChannelMediumType::SmbusV1_0 => 0x08,
            ChannelMediumType::SmbusV2_0 => 0x09,
            ChannelMediumType::Usb1X => 0x0A,
            ChannelMediumType::Usb2X => 0x0B,
            ChannelMediumType::SystemInterface => 0x0C,
            ChannelMediumType::Oem(value) | ChannelMediumType::ReservedValue(value) => value,
        }
    }
}

impl fmt::Display for ChannelMediumType {
    fn fmt(&self, f: &mut fmt::Formatter<'_>) -> fmt::Result {
        show(f, |out| sys::medium_text((*self).into(), out))
    }
}

/// What is spoken on a channel. Reference: IPMI 2.0, 6.4, Table 6-2.
#[derive(Clone, Copy, Debug, PartialEq, Eq, PartialOrd, Ord, Hash)]
#[allow(missing_docs)] // The standard's names.
pub enum ChannelProtocolType {
    Reserved,
    IpmbV1_0,
    IcmbV1_0,
    IpmiSmbus,
    Kcs,
    Smic,
    Bt10,
    Bt15,
    TerminalMode,
    Oem(u8),
    ReservedValue(u8),
}

impl From<u8> for ChannelProtocolType {
    fn from(value: u8) -> Self {
        match value {
            0x00 => Self::Reserved,
            0x01 => Self::IpmbV1_0,
            0x02 => Self::IcmbV1_0,
            0x04 => Self::IpmiSmbus,
            0x05 => Self::Kcs,
            0x06 => Self::Smic,
            0x07 => Self::Bt10,
            0x08 => Self::Bt15,
            0x09 => Self::TerminalMode,
            0x1C..=0x1F => Self::Oem(value),
            _ => Self::ReservedValue(value),
        }
    }
}

impl From<ChannelProtocolType> for u8 {
    fn from(protocol: ChannelProtocolType) -> Self {
        match protocol {
            ChannelProtocolType::Reserved => 0x00,
            ChannelProtocolType::IpmbV1_0 => 0x01,
            ChannelProtocolType::IcmbV1_0 => 0x02,
            ChannelProtocolType::IpmiSmbus => 0x04,
            ChannelProtocolType::Kcs => 0x05,
            ChannelProtocolType::Smic => 0x06,
            ChannelProtocolType::Bt10 => 0x07,
            ChannelProtocolType::Bt15 => 0x08,
            ChannelProtocolType::TerminalMode => 0x09,
            ChannelProtocolType::Oem(value) | ChannelProtocolType::ReservedValue(value) => value,
        }
    }
}

impl fmt::Display for ChannelProtocolType {
    fn fmt(&self, f: &mut fmt::Formatter<'_>) -> fmt::Result {
        show(f, |out| sys::protocol_text((*self).into(), out))
    }
}

/// Which sessions a channel has. Reference: IPMI 2.0, Table 22-29.
#[derive(Clone, Copy, Debug, PartialEq, Eq, PartialOrd, Ord, Hash)]
#[allow(missing_docs)] // The standard's names.
pub enum ChannelSessionSupport {
    Sessionless,
    SingleSession,
    MultiSession,
    SessionBased,
    Reserved(u8),
}

impl From<u8> for ChannelSessionSupport {
    fn from(value: u8) -> Self {
        match value {
            0x00 => Self::Sessionless,
            0x01 => Self::SingleSession,
            0x02 => Self::MultiSession,
            0x03 => Self::SessionBased,
            value => Self::Reserved(value),
        }
    }
}

impl From<ChannelSessionSupport> for u8 {
    fn from(support: ChannelSessionSupport) -> Self {
        match support {
            ChannelSessionSupport::Sessionless => 0x00,
            ChannelSessionSupport::SingleSession => 0x01,
            ChannelSessionSupport::MultiSession => 0x02,
            ChannelSessionSupport::SessionBased => 0x03,
            ChannelSessionSupport::Reserved(value) => value,
        }
    }
}

impl fmt::Display for ChannelSessionSupport {
    fn fmt(&self, f: &mut fmt::Formatter<'_>) -> fmt::Result {
        show(f, |out| sys::session_support_text((*self).into(), out))
    }
}

#[cfg(test)]
mod tests {
    use super::*;

    #[test]
    fn an_answer() {
        let info = ChannelInfo::parse(&[0x01, 0x04, 0x01, 0x81, 0xF2, 0x1B, 0x00, 0x0A, 0x0B]);
        let expected = ChannelInfo {
            channel: Channel::new(1).unwrap(),
            medium_type: ChannelMediumType::Lan802_3,
            protocol_type: ChannelProtocolType::IpmbV1_0,
            session_support: ChannelSessionSupport::MultiSession,
            active_sessions: 1,
            vendor_id: 7154,
            aux_info: AuxChannelInfo {
                byte1: 0x0A,
                byte2: 0x0B,
            },
        };
        assert_eq!(info, Ok(expected));
        assert_eq!(ChannelInfo::parse(&[0x01; 8]), Err(Error::NotEnoughData));
        assert_eq!(ChannelInfo::parse(&[0x0C; 9]), Err(Error::NotEnoughData));
    }

    #[test]
    fn request() {
        let message = Message::from(GetChannelInfo::new(Channel::System));
        assert_eq!(message.data(), [0x0F]);
        assert_eq!((message.netfn_raw(), message.cmd()), (0x06, 0x42));
    }

    #[test]
    fn numbers_and_texts() {
        for value in 0..=u8::MAX {
            let medium = ChannelMediumType::from(value);
            let protocol = ChannelProtocolType::from(value);
            let support = ChannelSessionSupport::from(value);
            assert_eq!(u8::from(medium), value);
            assert_eq!(u8::from(protocol), value);
            assert_eq!(u8::from(support), value);
            let oem = format!("OEM (0x{value:02X})");
            let reserved = format!("Reserved (0x{value:02X})");
            assert_eq!(medium.to_string() == oem, (0x60..=0x7F).contains(&value));
            assert_eq!(protocol.to_string() == oem, (0x1C..=0x1F).contains(&value));
            assert_eq!(support.to_string() == reserved, value > 3);
        }
        assert_eq!(
            ChannelMediumType::AsynchSerialModem.to_string(),
            "Asynchronous Serial/Modem"
        );
        assert_eq!(ChannelProtocolType::from(3).to_string(), "Reserved (0x03)");
    }
}
