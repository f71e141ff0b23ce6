//! The writing of requests: the port through C, and the crate behind the same kind of call, which makes a `Message` and copies
//! its data out.

use crate::called::{copying, nothing, Reader};
use oracle_core::app::auth::{
    ActivateSession, AuthType, GetChannelAuthenticationCapabilities, GetChannelCipherSuites,
    GetSessionChallenge, PrivilegeLevel,
};
use oracle_core::app::get_channel_access::GetChannelAccess;
use oracle_core::app::get_channel_info::GetChannelInfo;
use oracle_core::connection::{Channel, Message};
use std::slice::{from_raw_parts, from_raw_parts_mut};

extern "C" {
    fn ghj_access_request(channel: u8, kind: u8, out: *mut u8, room: usize) -> u64;
    fn ghj_info_request(channel: u8, out: *mut u8, room: usize) -> u64;
    fn ghj_capabilities_request(channel: u8, privilege: u8, out: *mut u8, room: usize) -> u64;
    fn ghj_challenge_request(
        auth_type: u8,
        name: *const u8,
        length: usize,
        out: *mut u8,
        room: usize,
    ) -> u64;
    fn ghj_activation_request(
        auth_type: u8,
        privilege: u8,
        challenge: *const [u8; 16],
        sequence: u32,
        out: *mut u8,
        room: usize,
    ) -> u64;
    fn ghj_suites_request(channel: u8, index: u8, out: *mut u8, room: usize) -> u64;
}

/// What requests are made of.
pub struct Asked {
    pub channel: u8,
    pub kind: u8,
    pub privilege: u8,
    pub auth_type: u8,
    pub name: &'static [u8],
    pub challenge: [u8; 16],
    pub sequence: u32,
    pub index: u8,
}

pub const ASKED: Asked = Asked {
    channel: 1,
    kind: 2,
    privilege: 4,
    auth_type: 2,
    name: b"operator",
    challenge: *b"sixteen bytes, 1",
    sequence: 0x0102_0304,
    index: 3,
};

/// A request into the buffer; its length.
pub type Writer = fn(&Asked, &mut [u8]) -> u64;

/// A work: the port's writer, the crate's behind the same kind of call, the crate's inlined, and the floor.
pub struct Writing {
    pub name: &'static str,
    pub port: Writer,
    pub called: Writer,
    pub inlined: Writer,
    pub floor: Reader,
}

const fn writing(
    name: &'static str,
    [port, called, inlined]: [Writer; 3],
    floor: Reader,
) -> Writing {
    Writing {
        name,
        port,
        called,
        inlined,
        floor,
    }
}

pub const WRITINGS: [Writing; 6] = [
    writing(
        "request of 41h",
        [port_access, called_access, access],
        copying::<2>,
    ),
    writing(
        "request of 42h",
        [port_info, called_info, info],
        copying::<1>,
    ),
    writing(
        "request of 38h",
        [port_capabilities, called_capabilities, capabilities],
        copying::<2>,
    ),
    writing(
        "request of 39h",
        [port_challenge, called_challenge, challenge],
        copying::<17>,
    ),
    writing(
        "request of 3Ah",
        [port_activation, called_activation, activation],
        copying::<22>,
    ),
    writing(
        "request of 54h",
        [port_suites, called_suites, suites],
        copying::<3>,
    ),
];

/// A call that writes nothing.
pub fn no_request(_: &Asked, out: &mut [u8]) -> u64 {
    unsafe { nothing(out.as_ptr(), 0, out.as_mut_ptr(), 0) }
}

fn port_access(a: &Asked, out: &mut [u8]) -> u64 {
    unsafe { ghj_access_request(a.channel, a.kind, out.as_mut_ptr(), out.len()) }
}

fn port_info(a: &Asked, out: &mut [u8]) -> u64 {
    unsafe { ghj_info_request(a.channel, out.as_mut_ptr(), out.len()) }
}

fn port_capabilities(a: &Asked, out: &mut [u8]) -> u64 {
    unsafe { ghj_capabilities_request(a.channel, a.privilege, out.as_mut_ptr(), out.len()) }
}

fn port_challenge(a: &Asked, out: &mut [u8]) -> u64 {
    let (name, length) = (a.name.as_ptr(), a.name.len());
    unsafe { ghj_challenge_request(a.auth_type, name, length, out.as_mut_ptr(), out.len()) }
}

fn port_activation(a: &Asked, out: &mut [u8]) -> u64 {
    let (place, room) = (out.as_mut_ptr(), out.len());
    unsafe {
        ghj_activation_request(
            a.auth_type,
            a.privilege,
            &a.challenge,
            a.sequence,
            place,
            room,
        )
    }
}

fn port_suites(a: &Asked, out: &mut [u8]) -> u64 {
    unsafe { ghj_suites_request(a.channel, a.index, out.as_mut_ptr(), out.len()) }
}

fn refused(number: u64) -> u64 {
    1 << 63 | number
}

/// The message's data at the start of out.
#[inline(always)]
fn sent(message: Message, out: &mut [u8]) -> u64 {
    let data = message.data();
    let Some(place) = out.get_mut(..data.len()) else {
        return refused(11);
    };
    place.copy_from_slice(data);
    data.len() as u64
}

#[inline(always)]
fn made<C: Into<Message>>(command: Result<C, u64>, out: &mut [u8]) -> u64 {
    match command {
        Ok(command) => sent(command.into(), out),
        Err(number) => refused(number),
    }
}

fn channel(number: u8) -> Result<Channel, u64> {
    Channel::new(number).ok_or(6)
}

fn auth_type(number: u8) -> Result<AuthType, u64> {
    AuthType::try_from(number).map_err(|()| 4 | u64::from(number) << 8)
}

fn privilege(number: u8) -> Result<PrivilegeLevel, u64> {
    PrivilegeLevel::try_from(number).map_err(|()| 5 | u64::from(number) << 8)
}

#[inline(always)]
fn access(a: &Asked, out: &mut [u8]) -> u64 {
    let command = match (channel(a.channel), a.kind) {
        (Ok(channel), 1) => Ok(GetChannelAccess::non_volatile(channel)),
        (Ok(channel), 2) => Ok(GetChannelAccess::volatile(channel)),
        (Ok(_), _) => Err(9),
        (Err(number), _) => Err(number),
    };
    made(command, out)
}

#[inline(always)]
fn info(a: &Asked, out: &mut [u8]) -> u64 {
    made(channel(a.channel).map(GetChannelInfo::new), out)
}

#[inline(always)]
fn capabilities(a: &Asked, out: &mut [u8]) -> u64 {
    let command = channel(a.channel).and_then(|channel| {
        let level = privilege(a.privilege)?;
        Ok(GetChannelAuthenticationCapabilities::new(channel, level))
    });
    made(command, out)
}

#[inline(always)]
fn challenge(a: &Asked, out: &mut [u8]) -> u64 {
    let command = auth_type(a.auth_type).and_then(|auth_type| {
        // The crate takes text alone; that these bytes are text is not asked at each call.
        let name = unsafe { std::str::from_utf8_unchecked(a.name) };
        GetSessionChallenge::new(auth_type, Some(name)).ok_or(8)
    });
    made(command, out)
}

#[inline(always)]
fn activation(a: &Asked, out: &mut [u8]) -> u64 {
    let command = auth_type(a.auth_type).and_then(|auth_type| {
        Ok(ActivateSession {
            auth_type,
            maximum_privilege_level: privilege(a.privilege)?,
            challenge_string: a.challenge,
            initial_sequence_number: a.sequence,
        })
    });
    made(command, out)
}

#[inline(always)]
fn suites(a: &Asked, out: &mut [u8]) -> u64 {
    let command = channel(a.channel)
        .and_then(|channel| GetChannelCipherSuites::new(channel, a.index).ok_or(7));
    made(command, out)
}

/// The crate's writers as C functions that are not inlined, with the arguments of the port's; and the calls of them.
macro_rules! called {
    ($($call:ident, $name:ident, $body:ident, ($($field:ident: $kind:ty),*);)*) => { $(
        #[inline(never)]
        unsafe extern "C" fn $name($($field: $kind,)* out: *mut u8, room: usize) -> u64 {
            let out = unsafe { from_raw_parts_mut(out, room) };
            $body(&Asked { $($field,)* ..ASKED }, out)
        }

        fn $call(a: &Asked, out: &mut [u8]) -> u64 {
            unsafe { $name($(a.$field,)* out.as_mut_ptr(), out.len()) }
        }
    )* };
}

called! {
    called_access, crate_access_request, access, (channel: u8, kind: u8);
    called_info, crate_info_request, info, (channel: u8);
    called_capabilities, crate_capabilities_request, capabilities, (channel: u8, privilege: u8);
    called_suites, crate_suites_request, suites, (channel: u8, index: u8);
}

#[inline(never)]
unsafe extern "C" fn crate_challenge_request(
    auth_type: u8,
    name: *const u8,
    length: usize,
    out: *mut u8,
    room: usize,
) -> u64 {
    let (name, out) = unsafe { (from_raw_parts(name, length), from_raw_parts_mut(out, room)) };
    challenge(
        &Asked {
            auth_type,
            name,
            ..ASKED
        },
        out,
    )
}

fn called_challenge(a: &Asked, out: &mut [u8]) -> u64 {
    let (name, length) = (a.name.as_ptr(), a.name.len());
    unsafe { crate_challenge_request(a.auth_type, name, length, out.as_mut_ptr(), out.len()) }
}

#[inline(never)]
unsafe extern "C" fn crate_activation_request(
    auth_type: u8,
    privilege: u8,
    challenge: *const [u8; 16],
    sequence: u32,
    out: *mut u8,
    room: usize,
) -> u64 {
    let (challenge, out) = unsafe { (*challenge, from_raw_parts_mut(out, room)) };
    activation(
        &Asked {
            auth_type,
            privilege,
            challenge,
            sequence,
            ..ASKED
        },
        out,
    )
}

fn called_activation(a: &Asked, out: &mut [u8]) -> u64 {
    let (place, room) = (out.as_mut_ptr(), out.len());
    unsafe {
        crate_activation_request(
            a.auth_type,
            a.privilege,
            &a.challenge,
            a.sequence,
            place,
            room,
        )
    }
}
