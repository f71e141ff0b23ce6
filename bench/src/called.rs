//! The crate's readers behind the same kind of call as the port's: C functions that are not inlined, on slices, with the
//! records of include/ghjalvestru.h written out. So too the plain strict reader.

use crate::plain::{strict_listing, strict_numbers, strict_step};
use oracle_core::app::auth::{
    ActivateSession, AuthError, ChannelCipherSuites, GetChannelAuthenticationCapabilities,
    GetChannelCipherSuites, GetSessionChallenge,
};
use oracle_core::app::get_channel_access::{
    ChannelAccess, ChannelAccessMode, ChannelPrivilegeLevel,
};
use oracle_core::app::get_channel_info::{
    ChannelInfo, ChannelMediumType, ChannelProtocolType, ChannelSessionSupport,
};
use oracle_core::connection::IpmiCommand;
use std::slice::{from_raw_parts, from_raw_parts_mut};

/// The C functions' type.
pub type Reader = unsafe extern "C" fn(*const u8, usize, *mut u8, usize) -> u64;

const NOT_ENOUGH_DATA: u64 = 1;
const TOO_MUCH_DATA: u64 = 2;
pub(crate) const NO_ROOM: u64 = 11;

pub(crate) fn refused(number: u64) -> u64 {
    1 << 63 | number
}

fn auth_refused(error: AuthError) -> u64 {
    refused(match error {
        AuthError::NotEnoughData => NOT_ENOUGH_DATA,
        AuthError::InvalidZeroSession => 3,
        AuthError::InvalidAuthType(byte) => 4 | u64::from(byte) << 8,
        AuthError::InvalidPrivilegeLevel(byte) => 5 | u64::from(byte) << 8,
    })
}

#[inline(always)]
pub(crate) fn placed(record: &[u8], out: &mut [u8]) -> u64 {
    let Some(place) = out.get_mut(..record.len()) else {
        return refused(NO_ROOM);
    };
    place.copy_from_slice(record);
    record.len() as u64
}

fn mode(mode: ChannelAccessMode) -> u8 {
    match mode {
        ChannelAccessMode::Disabled => 0,
        ChannelAccessMode::PreBootOnly => 1,
        ChannelAccessMode::AlwaysAvailable => 2,
        ChannelAccessMode::Shared => 3,
        ChannelAccessMode::Unknown(value) => value,
    }
}

fn limit(limit: ChannelPrivilegeLevel) -> u8 {
    match limit {
        ChannelPrivilegeLevel::Reserved => 0,
        ChannelPrivilegeLevel::Callback => 1,
        ChannelPrivilegeLevel::User => 2,
        ChannelPrivilegeLevel::Operator => 3,
        ChannelPrivilegeLevel::Administrator => 4,
        ChannelPrivilegeLevel::Oem => 5,
        ChannelPrivilegeLevel::Unknown(value) => value,
    }
}

fn medium(medium: ChannelMediumType) -> u8 {
    match medium {
        ChannelMediumType::Reserved => 0,
        ChannelMediumType::Ipmb => 1,
        ChannelMediumType::IcmbV1_0 => 2,
        ChannelMediumType::IcmbV0_9 => 3,
        ChannelMediumType::Lan802_3 => 4,
        ChannelMediumType::AsynchSerialModem => 5,
        ChannelMediumType::OtherLan => 6,
        ChannelMediumType::PciSmbus => 7,
        ChannelMediumType::SmbusV1_0 => 8,
        ChannelMediumType::SmbusV2_0 => 9,
        ChannelMediumType::Usb1X => 10,
        ChannelMediumType::Usb2X => 11,
        ChannelMediumType::SystemInterface => 12,
        ChannelMediumType::Oem(value) | ChannelMediumType::ReservedValue(value) => value,
    }
}

fn protocol(protocol: ChannelProtocolType) -> u8 {
    match protocol {
        ChannelProtocolType::Reserved => 0,
        ChannelProtocolType::IpmbV1_0 => 1,
        ChannelProtocolType::IcmbV1_0 => 2,
        ChannelProtocolType::IpmiSmbus => 4,
        ChannelProtocolType::Kcs => 5,
        ChannelProtocolType::Smic => 6,
        ChannelProtocolType::Bt10 => 7,
        ChannelProtocolType::Bt15 => 8,
        ChannelProtocolType::TerminalMode => 9,
        ChannelProtocolType::Oem(value) | ChannelProtocolType::ReservedValue(value) => value,
    }
}

fn session(support: ChannelSessionSupport) -> u8 {
    match support {
        ChannelSessionSupport::Sessionless => 0,
        ChannelSessionSupport::SingleSession => 1,
        ChannelSessionSupport::MultiSession => 2,
        ChannelSessionSupport::SessionBased => 3,
        ChannelSessionSupport::Reserved(value) => value,
    }
}

/// The function's name and its body on slices, as a C function.
macro_rules! called {
    ($name:ident, $body:ident) => {
        /// # Safety
        /// The pointers are those of slices of the lengths beside them.
        #[no_mangle]
        #[inline(never)]
        pub unsafe extern "C" fn $name(
            input: *const u8,
            length: usize,
            out: *mut u8,
            room: usize,
        ) -> u64 {
            let (input, out) =
                unsafe { (from_raw_parts(input, length), from_raw_parts_mut(out, room)) };
            $body(input, out)
        }
    };
}

called!(crate_access, access);
called!(crate_info, info);
called!(crate_capabilities, capabilities);
called!(crate_challenge, challenge);
called!(crate_activation, activation);
called!(crate_suites, suites);
called!(crate_numbers, numbers);
called!(plain_numbers, strict_numbers);
called!(plain_listing, strict_listing);

/// # Safety
/// The pointers are those of slices of the lengths beside them.
#[no_mangle]
#[inline(never)]
pub unsafe extern "C" fn plain_step(
    list: *const u8,
    length: usize,
    position: usize,
    out: *mut u8,
    room: usize,
) -> u64 {
    let (list, out) = unsafe { (from_raw_parts(list, length), from_raw_parts_mut(out, room)) };
    strict_step(list, position, out)
}

/// A call that does nothing.
///
/// # Safety
/// It does not look at them.
#[inline(never)]
pub unsafe extern "C" fn nothing(_: *const u8, _: usize, _: *mut u8, _: usize) -> u64 {
    0
}

/// A call that copies so many bytes, and asks nothing.
///
/// # Safety
/// Both pointers are those of as many bytes.
#[inline(never)]
pub unsafe extern "C" fn copying<const N: usize>(
    input: *const u8,
    _: usize,
    out: *mut u8,
    _: usize,
) -> u64 {
    unsafe { out.copy_from_nonoverlapping(input, N) };
    N as u64
}

#[inline(always)]
fn access(response: &[u8], out: &mut [u8]) -> u64 {
    let Some(access) = ChannelAccess::parse(response) else {
        return refused(NOT_ENOUGH_DATA);
    };
    let record = [
        mode(access.access_mode),
        u8::from(access.alerting_disabled),
        u8::from(access.per_msg_auth_disabled),
        u8::from(access.user_level_auth_disabled),
        limit(access.privilege_level_limit),
    ];
    placed(&record, out)
}

#[inline(always)]
fn info(response: &[u8], out: &mut [u8]) -> u64 {
    let Some(info) = ChannelInfo::parse(response) else {
        return refused(NOT_ENOUGH_DATA);
    };
    let mut record = [0; 11];
    record[0] = info.channel.value();
    record[1] = medium(info.medium_type);
    record[2] = protocol(info.protocol_type);
    record[3] = session(info.session_support);
    record[4] = info.active_sessions;
    record[5..9].copy_from_slice(&info.vendor_id.to_le_bytes());
    record[9] = info.aux_info.byte1;
    record[10] = info.aux_info.byte2;
    placed(&record, out)
}

#[inline(always)]
fn capabilities(response: &[u8], out: &mut [u8]) -> u64 {
    let Ok(said) = GetChannelAuthenticationCapabilities::parse_success_response(response) else {
        return refused(NOT_ENOUGH_DATA);
    };
    let [id0, id1, id2] = said.oem_id;
    let record = [
        said.channel_number,
        u8::from(said.oem_proprietary),
        u8::from(said.key),
        u8::from(said.md5),
        u8::from(said.md2),
        u8::from(said.none),
        u8::from(said.kg_status),
        u8::from(said.per_message_authentication_enabled),
        u8::from(said.user_level_authentication_enabled),
        u8::from(said.non_null_usernames_enabled),
        u8::from(said.null_usernames_enabled),
        u8::from(said.anonymous_login_enabled),
        u8::from(said.ipmi2_connections_supported),
        u8::from(said.ipmi15_connections_supported),
        id0,
        id1,
        id2,
        said.oem_auxiliary_data,
    ];
    placed(&record, out)
}

#[inline(always)]
fn challenge(response: &[u8], out: &mut [u8]) -> u64 {
    let said = match GetSessionChallenge::parse_success_response(response) {
        Ok(said) => said,
        Err(error) => return auth_refused(error),
    };
    let mut record = [0; 20];
    record[..4].copy_from_slice(&said.temporary_session_id.get().to_le_bytes());
    record[4..].copy_from_slice(&said.challenge_string);
    placed(&record, out)
}

#[inline(always)]
fn activation(response: &[u8], out: &mut [u8]) -> u64 {
    let said = match ActivateSession::parse_success_response(response) {
        Ok(said) => said,
        Err(error) => return auth_refused(error),
    };
    let mut record = [0; 10];
    record[0] = said.auth_type.into();
    record[1..5].copy_from_slice(&said.session_id.get().to_le_bytes());
    record[5..9].copy_from_slice(&said.initial_sequence_number.to_le_bytes());
    record[9] = said.maximum_privilege_level.into();
    placed(&record, out)
}

#[inline(always)]
fn suites(response: &[u8], out: &mut [u8]) -> u64 {
    match GetChannelCipherSuites::parse_success_response(response) {
        Ok(said) => placed(&said, out),
        Err(_) => refused(TOO_MUCH_DATA),
    }
}

/// As the port: refused where one number has no room.
#[inline(always)]
pub fn numbers(list: &[u8], out: &mut [u8]) -> u64 {
    let mut count = 0;
    for suite in ChannelCipherSuites::parse_full_data(list) {
        if count < out.len() {
            out[count] = suite.id();
        }
        count += 1;
    }
    if count > out.len() {
        return refused(NO_ROOM);
    }
    count as u64
}
