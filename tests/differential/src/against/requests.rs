//! The data of the six commands, as the crate's messages have them.

use crate::held::{refused, Expected, Held};
use crate::inputs::Random;
use ghjalvestru::sys::{self, NONE};
use oracle_core::app::auth::{
    ActivateSession, AuthType, GetChannelAuthenticationCapabilities, GetChannelCipherSuites,
    GetSessionChallenge, PrivilegeLevel,
};
use oracle_core::app::get_channel_access::GetChannelAccess;
use oracle_core::app::get_channel_info::GetChannelInfo;
use oracle_core::connection::{Channel, Message};

/// Characters of one to four bytes, and the zero, up to which a name is shown.
const CHARACTERS: [char; 8] = ['a', 'Z', '0', ' ', '\0', 'é', '€', '🜁'];

pub fn hold(all: &mut Vec<Held>, random: &mut Random, rounds: u64) {
    all.push(pairs("access_request", access, sys::access_request));
    all.push(info_requests());
    all.push(pairs(
        "capabilities_request",
        capabilities,
        sys::capabilities_request,
    ));
    all.push(challenge_requests(random, rounds));
    all.push(activation_requests(random, rounds));
    all.push(pairs("suites_request", suites, sys::suites_request));
}

fn written(message: impl Into<Message>) -> Expected {
    Ok(message.into().data().to_vec())
}

fn channel(number: u8) -> Result<Channel, u64> {
    Channel::new(number).ok_or(refused(6))
}

/// What names no type is not refused: it answers none.
pub fn auth_type(number: u8) -> Result<AuthType, u64> {
    AuthType::try_from(number).map_err(|()| NONE)
}

/// The same for a level as a command writes it: the crate makes it from the low nibble, and writes that alone.
fn level(number: u8) -> Result<PrivilegeLevel, u64> {
    let level = PrivilegeLevel::try_from(number).ok();
    let level = level.filter(|&level| u8::from(level) == number);
    level.ok_or(NONE)
}

/// On all pairs of numbers.
fn pairs(
    name: &'static str,
    expected: fn(u8, u8) -> Expected,
    call: fn(u8, u8, &mut [u8]) -> u64,
) -> Held {
    let mut held = Held::new(name, true);
    for one in 0..=u8::MAX {
        for other in 0..=u8::MAX {
            let said = |given: &[u8], out: &mut [u8]| call(given[0], given[1], out);
            held.writes(&[one, other], &expected(one, other), said);
        }
    }
    held
}

/// The kind is no number of the crate's: 1 is its first, 2 its second, and no other has a form.
fn access(number: u8, kind: u8) -> Expected {
    let channel = channel(number)?;
    match kind {
        1 => written(GetChannelAccess::non_volatile(channel)),
        2 => written(GetChannelAccess::volatile(channel)),
        _ => Err(refused(9)),
    }
}

fn capabilities(number: u8, privilege: u8) -> Expected {
    let channel = channel(number)?;
    written(GetChannelAuthenticationCapabilities::new(
        channel,
        level(privilege)?,
    ))
}

fn suites(number: u8, index: u8) -> Expected {
    let command = GetChannelCipherSuites::new(channel(number)?, index);
    written(command.ok_or(refused(7))?)
}

fn info(number: u8) -> Expected {
    written(GetChannelInfo::new(channel(number)?))
}

fn info_requests() -> Held {
    let mut held = Held::new("info_request", true);
    for number in 0..=u8::MAX {
        held.writes(&[number], &info(number), |given, out| {
            sys::info_request(given[0], out)
        });
    }
    held
}

fn challenge(number: u8, name: &str) -> Expected {
    let command = GetSessionChallenge::new(auth_type(number)?, Some(name));
    written(command.ok_or(refused(8))?)
}

/// The crate takes no name but valid UTF-8.
fn challenge_requests(random: &mut Random, rounds: u64) -> Held {
    let mut held = Held::new("challenge_request", true);
    let mut ask = |number: u8, name: &str| {
        held.writes(name.as_bytes(), &challenge(number, name), |name, out| {
            sys::challenge_request(number, name, out)
        });
    };
    for number in 0..=u8::MAX {
        for length in 0..=40 {
            ask(number, &"x".repeat(length));
        }
    }
    for _ in 0..rounds {
        let number = random.byte() % 5;
        let length = random.below(20);
        let name: String = (0..length).map(|_| random.one_of(&CHARACTERS)).collect();
        ask(number, &name);
    }
    held
}

/// The bytes of a question are the type, the level, the challenge, the sequence number.
fn activation_requests(random: &mut Random, rounds: u64) -> Held {
    let mut held = Held::new("activation_request", true);
    let mut ask = |given: [u8; 22]| held.writes(&given, &activation(given), activate);
    for one in 0..=u8::MAX {
        for other in 0..=u8::MAX {
            let mut given = random.array();
            given[..2].copy_from_slice(&[one, other]);
            ask(given);
        }
    }
    for _ in 0..rounds {
        let mut given = random.array();
        given[0] %= 5;
        given[1] %= 7;
        ask(given);
    }
    held
}

fn activation(given: [u8; 22]) -> Expected {
    let [number, privilege, challenge_string @ .., a, b, c, d] = given;
    written(ActivateSession {
        auth_type: auth_type(number)?,
        maximum_privilege_level: level(privilege)?,
        challenge_string,
        initial_sequence_number: u32::from_le_bytes([a, b, c, d]),
    })
}

fn activate(given: &[u8], out: &mut [u8]) -> u64 {
    let &[number, privilege, ref challenge @ .., a, b, c, d] = given else {
        unreachable!("twenty-two bytes were given");
    };
    let challenge = challenge.try_into().expect("the sixteen bytes between");
    let sequence = u32::from_le_bytes([a, b, c, d]);
    sys::activation_request(number, privilege, challenge, sequence, out)
}
