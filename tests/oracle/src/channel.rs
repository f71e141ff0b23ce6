//! Get Channel Access and Get Channel Info: their requests, their responses and
//! the types of the parts.

use crate::app::get_channel_access::{
    ChannelAccess, ChannelAccessMode, ChannelAccessType, ChannelPrivilegeLevel, GetChannelAccess,
};
use crate::app::get_channel_info::{
    ChannelInfo, ChannelMediumType, ChannelProtocolType, ChannelSessionSupport, GetChannelInfo,
};
use crate::bytes::Random;
use crate::connection::{Channel, IpmiCommand, Message, NotEnoughData};
use crate::leaves::channel;
use replay_form::{number, refused, written, List, Row, Said};
use std::fmt::Display;

pub const NOT_ENOUGH_DATA: u8 = 1;
const NO_FORM: u8 = 9;
pub const NOT_A_REQUEST: u8 = 10;

#[rustfmt::skip]
pub const ROWS: [Row; 14] = [
    Row { number: 0x01, name: "ghj_access", room: |_| 7 },
    Row { number: 0x02, name: "ghj_info", room: |_| 13 },
    Row { number: 0x08, name: "is_disabled", room: |_| 0 },
    Row { number: 0x0A, name: "access_written", room: |_| 4 },
    Row { number: 0x0B, name: "info_written", room: |_| 11 },
    Row { number: 0x10, name: "access_read", room: |_| 0 },
    Row { number: 0x11, name: "info_read", room: |_| 0 },
    Row { number: 0x21, name: "ghj_mode_text", room: |_| 18 },
    Row { number: 0x22, name: "ghj_limit_text", room: |_| 16 },
    Row { number: 0x23, name: "ghj_medium_text", room: |_| 27 },
    Row { number: 0x24, name: "ghj_protocol_text", room: |_| 17 },
    Row { number: 0x25, name: "ghj_session_support_text", room: |_| 17 },
    Row { number: 0x27, name: "ghj_info_request", room: |_| 3 },
    Row { number: 0x40, name: "ghj_access_request", room: |_| 4 },
];

/// Each of these takes one number and has a text for all 256.
const TEXTS: [&str; 5] = [
    "ghj_mode_text",
    "ghj_limit_text",
    "ghj_medium_text",
    "ghj_protocol_text",
    "ghj_session_support_text",
];

/// Malformed, or with another number of arguments.
const BAD: [(&str, &str); 13] = [
    ("ghj_access", " 0"),
    ("ghj_access", "  22 04"),
    ("ghj_access_request", ""),
    ("ghj_access_request", " 01"),
    ("ghj_access_request", " 01 01 00"),
    ("access_read", " 01 4"),
    ("ghj_info", "  01"),
    ("ghj_info", " 01 04 01 81 F2 1B 00 00 0G"),
    ("ghj_info_request", ""),
    ("ghj_info_request", " 01 00"),
    ("info_read", " 1"),
    ("ghj_mode_text", ""),
    ("ghj_mode_text", " 0"),
];

pub fn questions(list: &mut List) {
    access_questions(list);
    info_questions(list);
    list.heading("access and info, requests");
    request_questions(list);
    read_questions(list);
    list.heading("access and info, responses written again");
    written_questions(list);
    list.heading("access and info, texts");
    for name in TEXTS {
        list.sweep(name, &[0], 0);
    }
    bad_questions(list);
}

fn access_questions(list: &mut List) {
    list.heading("access: short answers, then all of two bytes");
    short_lengths(&mut Random::new(0x4368_616E_6E65_6C73), |data| {
        list.one("ghj_access", data);
        list.one("is_disabled", data);
    });
    for first in 0..=u8::MAX {
        list.sweep("ghj_access", &[first, 0], 1);
        list.sweep("is_disabled", &[first, 0], 1);
    }
}

fn info_questions(list: &mut List) {
    list.heading("info");
    let mut random = Random::new(0x1BD2_2451_9C4A_71D9);
    short_lengths(&mut random, |data| list.one("ghj_info", data));

    // A bad channel would hide every other byte.
    let mut any = random.bytes(9);
    while Channel::new(any[0] & 0x0F).is_none() {
        any[0] = random.byte();
    }
    let mut ones = [0xFF; 9];
    ones[0] = 0x0E;
    let usual = [0x01, 0x04, 0x01, 0x81, 0xF2, 0x1B, 0x00, 0x00, 0x00];
    for background in [&usual, &[0x00; 9], &ones, &any[..]] {
        list.each_byte("ghj_info", background);
    }

    for length in 0..=40 {
        for _ in 0..60 {
            list.one("ghj_info", &random.bytes(length));
        }
    }
}

fn request_questions(list: &mut List) {
    for kind in [1, 2] {
        list.sweep("ghj_access_request", &[0, kind], 0);
    }
    for number in [0x01, 0x0C] {
        list.sweep("ghj_access_request", &[number, 0], 1);
    }
    list.sweep("ghj_info_request", &[0], 0);
}

fn read_questions(list: &mut List) {
    for second in [0x00, 0x40, 0x80, 0xC0, 0x41] {
        list.sweep("access_read", &[0, second], 0);
    }
    list.sweep("access_read", &[0x01, 0], 1);
    // Other lengths, most with the bytes of a command at one of the ends.
    let others: [&[u8]; 12] = [
        &[],
        &[0x00],
        &[0x01],
        &[0x40],
        &[0x01, 0x40, 0x00],
        &[0x00, 0x01, 0x40],
        &[0x0E, 0x80, 0x80],
        &[0xFF, 0xFF, 0xFF],
        &[0x01, 0x40, 0x00, 0x00],
        &[0x00, 0x00, 0x01, 0x40],
        &[0x0E, 0x80, 0x0E, 0x80],
        &[0xFF, 0xFF, 0xFF, 0xFF],
    ];
    for data in others {
        list.one("access_read", data);
    }

    list.sweep("info_read", &[0], 0);
    let others: [&[u8]; 8] = [
        &[],
        &[0x00, 0x00],
        &[0x01, 0x00],
        &[0x0E, 0x0E],
        &[0x01, 0x40],
        &[0x00, 0x00, 0x00],
        &[0x01, 0x00, 0x00],
        &[0xFF, 0xFF, 0x0F],
    ];
    for data in others {
        list.one("info_read", data);
    }
}

fn written_questions(list: &mut List) {
    for first in 0..=u8::MAX {
        list.sweep("access_written", &[first, 0], 1);
    }
    for data in [&[][..], &[0x22], &[0x22, 0x04, 0x00]] {
        list.one("access_written", data);
    }

    let mut random = Random::new(0x021C_1E59_7675_D7B3);
    for _ in 0..1500 {
        list.one("info_written", &random.bytes(9));
    }
    // Other lengths, on a good channel and on one that is refused.
    for length in [0, 1, 2, 8, 10, 12, 18] {
        list.one("info_written", &vec![0x01; length]);
        list.one("info_written", &vec![0x0C; length]);
    }
}

fn bad_questions(list: &mut List) {
    list.heading("access and info, bad questions");
    for (name, text) in BAD {
        list.text(name, text);
    }
    list.one("ghj_limit_text", &[0x04, 0x04]);
    // No such function; sweeps of an argument that is not there, and of none.
    list.line(" 71 00 00 00");
    list.sweep("ghj_access", &[0], 1);
    list.sweep_over("ghj_access", &[0, 0], 0, 0, &[]);
}

/// Below, at and above the length that a response needs.
fn short_lengths(random: &mut Random, mut ask: impl FnMut(&[u8])) {
    for length in 0..=12 {
        ask(&vec![0x00; length]);
        ask(&vec![0xFF; length]);
        for _ in 0..6 {
            ask(&random.bytes(length));
        }
    }
}

pub fn answer(name: &str, data: &[u8]) -> Option<Said> {
    let said = match (name, data) {
        ("ghj_access", data) => access(data, laid),
        ("is_disabled", data) => access(data, |access| number(access.is_disabled().into())),
        ("access_written", data) => access_written(data),
        ("access_read", data) => read(data, access_commands()),
        ("ghj_access_request", &[number, kind]) => access_request(number, kind),
        ("ghj_info", data) => info(data),
        ("info_written", data) => info_written(data),
        ("info_read", data) => read(data, info_commands()),
        ("ghj_info_request", &[number]) => request(number, GetChannelInfo::new),
        ("ghj_mode_text", &[number]) => text::<ChannelAccessMode>(number),
        ("ghj_limit_text", &[number]) => text::<ChannelPrivilegeLevel>(number),
        ("ghj_medium_text", &[number]) => text::<ChannelMediumType>(number),
        ("ghj_protocol_text", &[number]) => text::<ChannelProtocolType>(number),
        ("ghj_session_support_text", &[number]) => text::<ChannelSessionSupport>(number),
        _ => return None,
    };
    Some(said)
}

fn access(data: &[u8], said: impl Fn(&ChannelAccess) -> Said) -> Said {
    let access = GetChannelAccess::parse_success_response(data);
    // The crate has two ways in; one answer can stand for both only while they
    // agree.
    assert_eq!(access, ChannelAccess::parse(data).ok_or(NotEnoughData));
    access.map_or_else(not_enough, |access| said(&access))
}

pub fn not_enough(_: NotEnoughData) -> Said {
    refused(NOT_ENOUGH_DATA)
}

fn laid(access: &ChannelAccess) -> Said {
    written([
        number_of(access.access_mode),
        access.alerting_disabled.into(),
        access.per_msg_auth_disabled.into(),
        access.user_level_auth_disabled.into(),
        number_of(access.privilege_level_limit),
    ])
}

/// The number that the crate makes into this value; it makes no two into the
/// same.
fn number_of<T: From<u8> + PartialEq>(value: T) -> u8 {
    let number = (0..=u8::MAX).find(|&number| T::from(number) == value);
    number.expect("the crate made the value from a number")
}

fn info(data: &[u8]) -> Said {
    let info = GetChannelInfo::parse_success_response(data);
    // As with access.
    assert_eq!(info, ChannelInfo::parse(data).ok_or(NotEnoughData));
    info.map_or_else(not_enough, |info| {
        let mut record = vec![
            info.channel.value(),
            number_of(info.medium_type),
            number_of(info.protocol_type),
            number_of(info.session_support),
            info.active_sessions,
        ];
        record.extend(info.vendor_id.to_le_bytes());
        record.extend([info.aux_info.byte1, info.aux_info.byte2]);
        written(record)
    })
}

/// The data of the command that is made for the channel of this number.
pub fn request<C: Into<Message>>(number: u8, command: impl Fn(Channel) -> C) -> Said {
    channel(number, |channel| written(command(channel).into().data()))
}

fn access_request(number: u8, kind: u8) -> Said {
    match kind {
        1 => request(number, GetChannelAccess::non_volatile),
        2 => request(number, GetChannelAccess::volatile),
        _ => channel(number, |_| refused(NO_FORM)),
    }
}

/// The crate reads no requests, but it can be asked for all that it writes. A
/// command's parts are a byte each, the first the lowest of the number.
pub fn read(data: &[u8], commands: impl Iterator<Item = ([u8; 2], Message)>) -> Said {
    let mut found = commands.filter(|(_, message)| message.data() == data);
    match (found.next(), found.next()) {
        (Some((parts, _)), None) => number(u16::from_le_bytes(parts).into()),
        (Some(_), Some(_)) => panic!("two commands write the same bytes"),
        (None, _) => refused(NOT_A_REQUEST),
    }
}

fn access_commands() -> impl Iterator<Item = ([u8; 2], Message)> {
    let types = [
        (1, ChannelAccessType::NonVolatile),
        (2, ChannelAccessType::Volatile),
    ];
    channels().flat_map(move |channel| {
        types.map(|(kind, access_type)| {
            let command = GetChannelAccess::new(channel, access_type);
            ([channel.value(), kind], command.into())
        })
    })
}

fn info_commands() -> impl Iterator<Item = ([u8; 2], Message)> {
    channels().map(|channel| ([channel.value(), 0], GetChannelInfo::new(channel).into()))
}

pub fn channels() -> impl Iterator<Item = Channel> {
    (0..=u8::MAX).filter_map(Channel::new)
}

/// The standard's answer, not the crate's, which has no writer of responses:
/// reserved bits are written as 0 (IPMI 2.0, Table 22-28).
fn access_written(data: &[u8]) -> Said {
    match data {
        &[first, second, ..] => written([first & 0x3F, second & 0x0F]),
        _ => refused(NOT_ENOUGH_DATA),
    }
}

/// The standard's answer too (IPMI 2.0, Table 22-29). Channels 0xC and 0xD give
/// no record, so there is nothing to write.
fn info_written(data: &[u8]) -> Said {
    let Some(&[channel, medium, protocol, ref rest @ ..]) = data.first_chunk::<9>() else {
        return refused(NOT_ENOUGH_DATA);
    };
    if matches!(channel & 0x0F, 0x0C | 0x0D) {
        return refused(NOT_ENOUGH_DATA);
    }
    let start = [channel & 0x0F, medium & 0x7F, protocol & 0x1F];
    written([&start, &rest[..]].concat())
}

/// Of the whole number, whatever bits a response has for it.
fn text<T: From<u8> + Display>(number: u8) -> Said {
    written(T::from(number).to_string())
}
