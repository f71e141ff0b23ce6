//! The types without parts: channels, units, algorithms, authentication types
//! and privilege levels.

use crate::app::auth::{
    AuthType, AuthenticationAlgorithm, ConfidentialityAlgorithm, IntegrityAlgorithm, PrivilegeLevel,
};
use crate::connection::{Channel, ChannelNumber, LogicalUnit};
use replay_form::{none, number, refused, written, List, Row, Said};
use std::cmp::Ordering;
use std::fmt::Debug;
use std::num::NonZeroU8;

pub const NO_CHANNEL: u8 = 6;

#[rustfmt::skip]
pub const ROWS: [Row; 12] = [
    Row { number: 0x30, name: "channel_number", room: |_| 0 },
    Row { number: 0x31, name: "channel", room: |_| 0 },
    Row { number: 0x32, name: "unit_low", room: |_| 0 },
    Row { number: 0x33, name: "unit", room: |_| 0 },
    Row { number: 0x34, name: "authentication", room: |_| 0 },
    Row { number: 0x35, name: "integrity", room: |_| 0 },
    Row { number: 0x36, name: "confidentiality", room: |_| 0 },
    Row { number: 0x37, name: "auth_type", room: |_| 0 },
    Row { number: 0x38, name: "privilege", room: |_| 0 },
    Row { number: 0x20, name: "ghj_channel_text", room: |_| 17 },
    Row { number: 0x26, name: "ghj_auth_type_name", room: |_| 6 },
    Row { number: 0x43, name: "ghj_compare_strength", room: |_| 0 },
];

/// The numbers that name an authentication type.
pub const AUTH_TYPES: [u8; 4] = [0, 1, 2, 4];

/// The names of each type, in the order of the crate's.
const UNITS: [&str; 4] = ["Zero", "One", "Two", "Three"];
const AUTHENTICATIONS: [&str; 4] = ["RakpNone", "RakpHmacSha1", "RakpHmacMd5", "RakpHmacSha256"];
const INTEGRITIES: [&str; 5] = [
    "None",
    "HmacSha1_96",
    "HmacMd5_128",
    "Md5_128",
    "HmacSha256_128",
];
pub const CONFIDENTIALITIES: [&str; 4] = ["None", "AesCbc128", "Xrc4_128", "Xrc4_40"];
const TYPES: [&str; 4] = ["None", "MD2", "MD5", "Key"];
const LEVELS: [&str; 5] = [
    "Callback",
    "User",
    "Operator",
    "Administrator",
    "OemProperietary",
];

/// What stands behind a function and is refused for its form, its number of
/// arguments or both.
const BAD: [(&str, &str); 6] = [
    ("channel", ""),
    ("channel", " 0"),
    ("channel", " 0G"),
    ("channel", " 00 00"),
    ("channel", "  00"),
    ("ghj_compare_strength", " 00"),
];

/// Few enough to ask all there are.
pub fn questions(list: &mut List) {
    list.heading("types without parts");
    for row in &ROWS[..11] {
        list.sweep(row.name, &[0], 0);
    }
    for one in AUTH_TYPES {
        for other in AUTH_TYPES {
            list.one("ghj_compare_strength", &[one, other]);
        }
    }
    for (name, text) in BAD {
        list.text(name, text);
    }
    // No such function, no line, more lent than can be, as long as a line can be
    // and longer.
    list.line(" 70 00 00 00");
    list.line("");
    list.line(" 31 01 08 00");
    list.line(&" 00".repeat(1365));
    list.line(&" 00".repeat(1366));
}

pub fn answer(name: &str, data: &[u8]) -> Option<Said> {
    let said = match (name, data) {
        ("channel_number", &[number]) => channel_number(number),
        ("channel", &[number]) => channel(number, |channel| value(channel.value())),
        ("unit_low", &[number]) => unit(LogicalUnit::from_low_bits(number)),
        ("unit", &[number]) => LogicalUnit::try_from(number).map_or_else(nothing, unit),
        ("authentication", &[number]) => named::<AuthenticationAlgorithm>(number, &AUTHENTICATIONS),
        ("integrity", &[number]) => named::<IntegrityAlgorithm>(number, &INTEGRITIES),
        ("confidentiality", &[number]) => {
            named::<ConfidentialityAlgorithm>(number, &CONFIDENTIALITIES)
        }
        ("auth_type", &[number]) => named::<AuthType>(number, &TYPES),
        ("privilege", &[number]) => named::<PrivilegeLevel>(number, &LEVELS),
        ("ghj_channel_text", &[number]) => channel(number, |channel| written(channel.to_string())),
        ("ghj_auth_type_name", &[number]) => match AuthType::try_from(number) {
            Ok(auth_type) => written(format!("{auth_type:?}")),
            Err(()) => none(),
        },
        ("ghj_compare_strength", &[one, other]) => strength(one, other),
        _ => return None,
    };
    Some(said)
}

fn value(byte: u8) -> Said {
    number(byte.into())
}

fn channel_number(number: u8) -> Said {
    // The type of the argument already refuses 0.
    match NonZeroU8::new(number).and_then(ChannelNumber::new) {
        Some(channel) => value(channel.value().get()),
        None => refused(NO_CHANNEL),
    }
}

/// Of the channel of this number.
pub fn channel(number: u8, said: impl Fn(Channel) -> Said) -> Said {
    Channel::new(number).map_or_else(|| refused(NO_CHANNEL), said)
}

fn unit(unit: LogicalUnit) -> Said {
    shown(&unit, unit.value(), &UNITS)
}

fn nothing(_: ()) -> Said {
    none()
}

/// What a number names, and the number that the name gives back.
pub fn named<T>(number: u8, names: &[&str]) -> Said
where
    T: TryFrom<u8, Error = ()> + Into<u8> + Copy + Debug,
{
    T::try_from(number).map_or_else(nothing, |name| shown(&name, name.into(), names))
}

/// The number, then the place of its name.
fn shown(name: &dyn Debug, value: u8, names: &[&str]) -> Said {
    let name = format!("{name:?}");
    let place = names.iter().position(|&other| other == name);
    let place = place.expect("it is one of the names");
    number(u64::from(value) + 256 * place as u64)
}

fn strength(one: u8, other: u8) -> Said {
    match [one, other].map(AuthType::try_from) {
        [Ok(one), Ok(other)] => number(match one.compare_strength(&other) {
            Ordering::Less => 0,
            Ordering::Equal => 1,
            Ordering::Greater => 2,
        }),
        _ => none(),
    }
}
