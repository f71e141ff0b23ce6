//! Get Channel Authentication Capabilities, Get Session Challenge and Activate
//! Session: their requests and their responses.

use crate::app::auth::{
    ActivateSession, AuthError, AuthType, ChannelAuthenticationCapabilities,
    GetChannelAuthenticationCapabilities, GetSessionChallenge, PrivilegeLevel,
};
use crate::bytes::Random;
use crate::channel::{channels, not_enough, read, request, NOT_A_REQUEST, NOT_ENOUGH_DATA};
use crate::connection::{IpmiCommand, Message};
use crate::leaves::{channel, AUTH_TYPES};
use replay_form::{none, number, refused, refused_with, written, List, Row, Said};
use std::fmt::Debug;

const INVALID_ZERO_SESSION: u8 = 3;
const INVALID_AUTH_TYPE: u8 = 4;
const INVALID_PRIVILEGE_LEVEL: u8 = 5;
const LONG_NAME: u8 = 8;

#[rustfmt::skip]
pub const ROWS: [Row; 12] = [
    Row { number: 0x03, name: "ghj_capabilities", room: |_| 20 },
    Row { number: 0x04, name: "ghj_challenge", room: |_| 22 },
    Row { number: 0x05, name: "ghj_activation", room: |_| 12 },
    Row { number: 0x09, name: "best_auth", room: |_| 0 },
    Row { number: 0x0C, name: "capabilities_written", room: |_| 10 },
    Row { number: 0x12, name: "capabilities_read", room: |_| 0 },
    Row { number: 0x13, name: "challenge_read", room: |_| 18 },
    Row { number: 0x14, name: "activation_read", room: |_| 18 },
    Row { number: 0x41, name: "ghj_capabilities_request", room: |_| 4 },
    Row { number: 0x50, name: "ghj_challenge_request", room: |_| 19 },
    Row { number: 0x51, name: "challenge_name", room: |_| 18 },
    Row { number: 0x52, name: "ghj_activation_request", room: |_| 24 },
];

/// The numbers that name a privilege level.
const LEVELS: [u8; 5] = [1, 2, 3, 4, 5];

/// An answer to Activate Session that is taken.
const ACTIVATED: [u8; 10] = [0x02, 0x01, 0x00, 0x00, 0x00, 0x05, 0x00, 0x00, 0x00, 0x04];

/// Malformed, or with another number of arguments.
const BAD: [(&str, &str); 23] = [
    ("ghj_capabilities", " 0"),
    ("ghj_capabilities", "  01 96 04 03 00 00 00 00"),
    ("ghj_capabilities", " 01 96 04 03 00 00 00 0G"),
    ("ghj_capabilities_request", ""),
    ("ghj_capabilities_request", " 01"),
    ("ghj_capabilities_request", " 01 4"),
    ("ghj_capabilities_request", " 01 04 00"),
    ("capabilities_read", " 8"),
    ("capabilities_read", " 81  04"),
    ("capabilities_written", " 01 9"),
    ("ghj_challenge", " 1"),
    ("ghj_challenge", "  01"),
    ("ghj_challenge_request", ""),
    ("ghj_challenge_request", " 2"),
    ("ghj_challenge_request", " 02 6"),
    ("challenge_name", ""),
    ("challenge_name", " 02  61"),
    ("challenge_read", " 0"),
    ("ghj_challenge", " +1"),
    ("ghj_activation", " 02 01 00 00 00 05 00 00 00 4"),
    ("ghj_activation_request", ""),
    ("activation_read", " 02 4"),
    ("ghj_activation", " 0x"),
];

pub fn questions(list: &mut List) {
    let mut random = Random::new(0x5365_7373_696F_6E73);
    list.heading("capabilities");
    capabilities_questions(list, &mut random);
    list.heading("capabilities, requests");
    capabilities_request_questions(list);
    list.heading("challenge");
    challenge_questions(list, &mut random);
    list.heading("challenge, requests");
    challenge_request_questions(list, &mut random);
    list.heading("activation");
    activation_questions(list, &mut random);
    list.heading("activation, requests");
    activation_request_questions(list, &mut random);
    list.heading("capabilities, challenge and activation, bad questions");
    for (name, text) in BAD {
        list.text(name, text);
    }
    // No such functions.
    list.line(" 72 14 00 01 96 04 03 00 00 00 00");
    list.line(" 73 16 00");
}

fn capabilities_questions(list: &mut List, random: &mut Random) {
    for length in 0..=30 {
        ask_for_capabilities(list, &vec![0x00; length]);
        ask_for_capabilities(list, &vec![0xFF; length]);
        for _ in 0..6 {
            ask_for_capabilities(list, &random.bytes(length));
        }
    }

    let usual = [0x01, 0x96, 0x04, 0x03, 0x00, 0x00, 0x00, 0x00];
    // Bit 7 of byte 1 asks for an eighth byte, so with seven it is clear.
    let short = [0x01, 0x16, 0x04, 0x0A, 0x0B, 0x0C, 0x0D];
    let any = random.bytes(8);
    let mut any_short = random.bytes(7);
    any_short[1] &= 0x7F;
    for background in [&usual[..], &[0x00; 8], &[0xFF; 8], &any, &short, &any_short] {
        list.each_byte("ghj_capabilities", background);
        list.each_byte("best_auth", background);
    }

    for length in [7, 8] {
        for turn in 0..1500 {
            let data = random.bytes(length);
            ask_for_capabilities(list, &data);
            if turn % 2 == 0 {
                list.one("capabilities_written", &data);
            }
        }
    }
    // Other lengths too, without the bit and with it.
    for length in 0..=12 {
        list.one("capabilities_written", &vec![0x55; length]);
        list.one("capabilities_written", &vec![0xAA; length]);
    }
}

/// The record, and the best type that it offers.
fn ask_for_capabilities(list: &mut List, data: &[u8]) {
    list.one("ghj_capabilities", data);
    list.one("best_auth", data);
}

fn capabilities_request_questions(list: &mut List) {
    list.sweep("ghj_capabilities_request", &[0, 0x04], 0);
    for number in [0x01, 0x0E] {
        list.sweep("ghj_capabilities_request", &[number, 0], 1);
    }
    // Both are refused, the channel first.
    list.one("ghj_capabilities_request", &[0x0C, 0x06]);

    for second in [0x00, 0x01, 0x02, 0x03, 0x04, 0x05, 0x06, 0x14] {
        list.sweep("capabilities_read", &[0, second], 0);
    }
    // Other lengths, most with the bytes of a command at one of the ends.
    let others: [&[u8]; 9] = [
        &[],
        &[0x00],
        &[0x81],
        &[0x04],
        &[0x81, 0x04, 0x00],
        &[0x00, 0x81, 0x04],
        &[0x8E, 0x05, 0x05],
        &[0xFF, 0xFF, 0xFF],
        &[0x81, 0x04, 0x81, 0x04],
    ];
    for data in others {
        list.one("capabilities_read", data);
    }
}

fn challenge_questions(list: &mut List, random: &mut Random) {
    for length in 0..=30 {
        list.one("ghj_challenge", &vec![0x00; length]);
        list.one("ghj_challenge", &vec![0xFF; length]);
        for _ in 0..4 {
            list.one("ghj_challenge", &random.bytes(length));
        }
    }

    list.each_byte("ghj_challenge", &without_id(random));
    list.each_byte("ghj_challenge", &random.bytes(20));

    for _ in 0..100 {
        list.one("ghj_challenge", &without_id(random));
    }
    for _ in 0..1200 {
        list.one("ghj_challenge", &random.bytes(20));
    }
    for _ in 0..50 {
        list.one("ghj_challenge", &without_id(random));
    }
    for length in 0..=30 {
        list.one("ghj_challenge", &random.bytes(length));
    }
}

/// An answer of the right length for session 0, which is none.
fn without_id(random: &mut Random) -> Vec<u8> {
    let mut data = random.bytes(20);
    data[..4].fill(0x00);
    data
}

/// All names here are valid UTF-8, since the crate takes no others.
fn challenge_request_questions(list: &mut List, random: &mut Random) {
    let names = names();
    for number in AUTH_TYPES {
        for name in &names {
            ask_for_name(list, number, name.as_bytes());
        }
    }
    for _ in 0..500 {
        let number = auth_number(random);
        let name = printable(random, 20);
        ask_for_name(list, number, &name);
    }
    for number in [0x03, 0x05, 0x14] {
        for name in ["", "a", "admin", "abcdefghijklmnop", "abcdefghijklmnopq"] {
            ask_for_name(list, number, name.as_bytes());
        }
    }

    list.sweep("challenge_read", &padded(0, b"operator"), 0);
    // Cut short and made longer, so that at 17 bytes it is a command.
    let command = [b"\x02", letters(20).as_bytes()].concat();
    for length in 0..=20 {
        list.one("challenge_read", &command[..length]);
        list.one("challenge_read", &vec![0x00; length]);
    }
    for number in AUTH_TYPES {
        for name in names.iter().filter(|name| name.len() <= 16) {
            list.one("challenge_read", &padded(number, name.as_bytes()));
        }
    }
    for turn in 0..500 {
        let number = auth_number(random);
        let mut name = printable(random, 16);
        // Bytes after the first zero are not shown, yet they are written.
        if turn % 4 == 0 && !name.is_empty() {
            let place = usize::from(random.byte()) % name.len();
            name[place] = 0x00;
        }
        list.one("challenge_read", &padded(number, &name));
    }
}

/// The command and the name that it shows.
fn ask_for_name(list: &mut List, number: u8, name: &[u8]) {
    let data = [&[number], name].concat();
    list.one("ghj_challenge_request", &data);
    list.one("challenge_name", &data);
}

/// The bytes of the command.
fn padded(number: u8, name: &[u8]) -> Vec<u8> {
    let mut data = [&[number], name].concat();
    data.resize(17, 0x00);
    data
}

/// Names up to and across sixteen bytes.
fn names() -> Vec<String> {
    let mut names: Vec<String> = (0..=20).map(letters).collect();

    // Zeros inside, at the start and at the end.
    for length in [1, 2, 15, 16, 17] {
        names.push("\0".repeat(length));
    }
    for length in 0..=16 {
        names.push(letters(length) + "\0");
        names.push("\0".to_string() + &letters(length));
        names.push(letters(length / 2) + "\0" + &letters(length - length / 2));
    }
    names.push("a\0b\0c".to_string());
    names.push("root\0\0\0\0admin".to_string());

    // Two, three and four bytes to a character, at every place.
    for character in ["é", "漢", "𝄞"] {
        for length in 0..=16 {
            names.push(letters(length) + character);
        }
        for count in 2..=9 {
            names.push(character.repeat(count));
        }
    }
    names.push("é\0é".to_string());
    names.push("\0漢".to_string());
    names.push("é漢𝄞 é漢".to_string());
    names
}

fn letters(length: usize) -> String {
    ('a'..='z').take(length).collect()
}

fn printable(random: &mut Random, longest: u8) -> Vec<u8> {
    let length = random.byte() % (longest + 1);
    (0..length).map(|_| b' ' + random.byte() % 95).collect()
}

fn auth_number(random: &mut Random) -> u8 {
    AUTH_TYPES[usize::from(random.byte()) % AUTH_TYPES.len()]
}

fn level_number(random: &mut Random) -> u8 {
    LEVELS[usize::from(random.byte()) % LEVELS.len()]
}

fn activation_questions(list: &mut List, random: &mut Random) {
    for length in 0..=30 {
        list.one("ghj_activation", &vec![0x00; length]);
        list.one("ghj_activation", &vec![0xFF; length]);
        let mut good = ACTIVATED.to_vec();
        good.resize(length, 0x00);
        list.one("ghj_activation", &good);
        for _ in 0..3 {
            // A random type is nearly always refused.
            let mut data = random.bytes(length);
            if let Some(first) = data.first_mut() {
                *first = auth_number(random);
            }
            list.one("ghj_activation", &data);
        }
    }

    // One that is taken and one for each refusal; a byte that runs brings a
    // second refusal, so that their order shows.
    let (mut bad_type, mut session_zero, mut bad_level) = (ACTIVATED, ACTIVATED, ACTIVATED);
    bad_type[0] = 0x03;
    session_zero[1] = 0x00;
    bad_level[9] = 0x06;
    for background in [ACTIVATED, bad_type, session_zero, bad_level] {
        list.each_byte("ghj_activation", &background);
    }

    for _ in 0..3000 {
        list.one("ghj_activation", &activated(random));
    }
    for length in 0..=20 {
        let mut data = ACTIVATED.to_vec();
        data.resize(length, 0xFF);
        list.one("ghj_activation", &data);
    }
}

/// Random, but for bytes that would nearly always be refused: the type is
/// mostly 0 to 5, the level mostly small. The session is sometimes 0.
fn activated(random: &mut Random) -> Vec<u8> {
    let mut data = random.bytes(10);
    if random.byte() % 16 != 0 {
        data[0] %= 6;
    }
    if random.byte() % 8 == 0 {
        data[1..5].fill(0x00);
    }
    if random.byte() % 4 != 0 {
        data[9] %= 8;
    }
    data
}

fn activation_request_questions(list: &mut List, random: &mut Random) {
    for number in AUTH_TYPES.into_iter().chain([0x03, 0x14]) {
        for level in LEVELS.into_iter().chain([0x00, 0x06, 0x14]) {
            for _ in 0..4 {
                ask_for_activation(list, random, number, level);
            }
        }
    }
    for _ in 0..500 {
        let number = auth_number(random);
        let level = level_number(random);
        ask_for_activation(list, random, number, level);
    }

    // Cut short and made longer, so that at 22 bytes it is a command.
    let command = [vec![0x02, 0x04], random.bytes(23)].concat();
    for length in 0..=25 {
        list.one("activation_read", &command[..length]);
        list.one("activation_read", &vec![0x01; length]);
    }
    // Here all other lengths are bad questions; the nearest will do.
    for length in [2, 21, 22, 23] {
        list.one("ghj_activation_request", &command[..length]);
    }
    // The reserved bits of the type stand in no command.
    list.sweep("activation_read", &[0x04; 22], 0);
}

/// The command, and which command its bytes are.
fn ask_for_activation(list: &mut List, random: &mut Random, number: u8, level: u8) {
    let data = [vec![number, level], random.bytes(20)].concat();
    list.one("ghj_activation_request", &data);
    list.one("activation_read", &data);
}

pub fn answer(name: &str, data: &[u8]) -> Option<Said> {
    let said = match (name, data) {
        ("ghj_capabilities", data) => capabilities(data, laid),
        ("best_auth", data) => capabilities(data, best),
        ("capabilities_written", data) => capabilities_written(data),
        ("capabilities_read", data) => read(data, capabilities_commands()),
        ("ghj_capabilities_request", &[number, level]) => capabilities_request(number, level),
        ("ghj_challenge", data) => challenge(data),
        ("challenge_read", data) => challenge_read(data),
        ("ghj_challenge_request", &[number, ref name @ ..]) => challenge_request(number, name),
        ("challenge_name", &[number, ref name @ ..]) => challenge_name(number, name),
        ("ghj_activation", data) => activation(data),
        ("activation_read", data) => activation_read(data),
        ("ghj_activation_request", data) => activation_request(data.try_into().ok()?),
        _ => return None,
    };
    Some(said)
}

fn capabilities(data: &[u8], said: fn(&ChannelAuthenticationCapabilities) -> Said) -> Said {
    let record = GetChannelAuthenticationCapabilities::parse_success_response(data);
    record.map_or_else(not_enough, |record| said(&record))
}

fn laid(record: &ChannelAuthenticationCapabilities) -> Said {
    let flags = [
        record.oem_proprietary,
        record.key,
        record.md5,
        record.md2,
        record.none,
        record.kg_status,
        record.per_message_authentication_enabled,
        record.user_level_authentication_enabled,
        record.non_null_usernames_enabled,
        record.null_usernames_enabled,
        record.anonymous_login_enabled,
        record.ipmi2_connections_supported,
        record.ipmi15_connections_supported,
    ];
    let mut bytes = vec![record.channel_number];
    bytes.extend(flags.map(u8::from));
    bytes.extend(record.oem_id);
    bytes.push(record.oem_auxiliary_data);
    written(bytes)
}

fn best(record: &ChannelAuthenticationCapabilities) -> Said {
    match record.best_auth() {
        Some(auth_type) => number(u8::from(auth_type).into()),
        None => none(),
    }
}

fn capabilities_request(number: u8, level: u8) -> Said {
    channel(number, |_| match level_of(level) {
        Ok(level) => request(number, |channel| {
            GetChannelAuthenticationCapabilities::new(channel, level)
        }),
        Err(refused) => refused,
    })
}

fn capabilities_commands() -> impl Iterator<Item = ([u8; 2], Message)> {
    channels().flat_map(|channel| {
        LEVELS.into_iter().flat_map(level_of).map(move |level| {
            let command = GetChannelAuthenticationCapabilities::new(channel, level);
            ([channel.value(), level.into()], command.into())
        })
    })
}

/// The type of this number: a number that names nothing answers none.
fn type_of(number: u8) -> Result<AuthType, Said> {
    AuthType::try_from(number).map_err(|()| none())
}

/// The level of exactly this number: the crate looks at the low nibble alone,
/// but no command writes more than that.
fn level_of(number: u8) -> Result<PrivilegeLevel, Said> {
    match PrivilegeLevel::try_from(number) {
        Ok(level) if u8::from(level) == number => Ok(level),
        _ => Err(none()),
    }
}

/// The standard's answer, not the crate's, which has no writer of responses
/// (IPMI 2.0, Table 22-15): always the longer form, reserved bits as 0.
fn capabilities_written(data: &[u8]) -> Said {
    again::<GetChannelAuthenticationCapabilities>(data, |record| {
        let types = bits(&[
            (7, true),
            (5, record.oem_proprietary),
            (4, record.key),
            (2, record.md5),
            (1, record.md2),
            (0, record.none),
        ]);
        // Set means that it is not enabled, for the two of authentication.
        let status = bits(&[
            (5, record.kg_status),
            (4, !record.per_message_authentication_enabled),
            (3, !record.user_level_authentication_enabled),
            (2, record.non_null_usernames_enabled),
            (1, record.null_usernames_enabled),
            (0, record.anonymous_login_enabled),
        ]);
        let connections = bits(&[
            (1, record.ipmi2_connections_supported),
            (0, record.ipmi15_connections_supported),
        ]);
        let mut written = vec![record.channel_number, types, status, connections];
        written.extend(record.oem_id);
        written.push(record.oem_auxiliary_data);
        written
    })
    .unwrap_or_else(not_enough)
}

fn bits(bits: &[(u32, bool)]) -> u8 {
    bits.iter()
        .fold(0, |byte, &(place, set)| byte | u8::from(set) << place)
}

/// The record has the form of the response (IPMI 2.0, the response of this
/// command).
fn challenge(data: &[u8]) -> Said {
    again::<GetSessionChallenge>(data, |record| {
        let mut bytes = record.temporary_session_id.get().to_le_bytes().to_vec();
        bytes.extend(record.challenge_string);
        bytes
    })
    .unwrap_or_else(fault)
}

fn fault(fault: AuthError) -> Said {
    match fault {
        AuthError::NotEnoughData => refused(NOT_ENOUGH_DATA),
        AuthError::InvalidZeroSession => refused(INVALID_ZERO_SESSION),
        AuthError::InvalidAuthType(byte) => refused_with(INVALID_AUTH_TYPE, byte.into()),
        AuthError::InvalidPrivilegeLevel(byte) => {
            refused_with(INVALID_PRIVILEGE_LEVEL, byte.into())
        }
    }
}

fn challenge_request(number: u8, name: &[u8]) -> Said {
    match type_of(number).and_then(|auth_type| challenge_command(auth_type, name)) {
        Ok(command) => written(message_data(command)),
        Err(refused) => refused,
    }
}

fn challenge_name(number: u8, name: &[u8]) -> Said {
    let Ok(auth_type) = type_of(number) else {
        return none();
    };
    match challenge_command(auth_type, name) {
        Ok(command) => shown(&command),
        Err(refused) => refused,
    }
}

/// What the crate makes of the type and the name, which has to be valid UTF-8.
fn challenge_command(auth_type: AuthType, name: &[u8]) -> Result<GetSessionChallenge, Said> {
    let name = std::str::from_utf8(name).expect("the crate takes no other name");
    let command = GetSessionChallenge::new(auth_type, Some(name));
    if name.is_empty() {
        // One answer stands for no name and for the empty one.
        assert_eq!(command, GetSessionChallenge::new(auth_type, None));
    }
    command.ok_or_else(|| refused(LONG_NAME))
}

/// The name, the number being the type and the name's length.
fn shown(command: &GetSessionChallenge) -> Said {
    let mut said = written(command.username());
    said.number = 256 * said.number + u64::from(u8::from(command.auth_type()));
    said
}

/// The commands are too many to be asked for all that they write. But any name
/// of sixteen bytes makes one, so the bytes themselves say which it has to be.
fn challenge_read(data: &[u8]) -> Said {
    let (&[number, ref name @ ..], 17) = (data, data.len()) else {
        return refused(NOT_A_REQUEST);
    };
    let Ok(auth_type) = type_of(number) else {
        return refused(NOT_A_REQUEST);
    };
    let command = challenge_command(auth_type, name).expect("the name is not too long");
    assert_eq!(message_data(command), data);
    shown(&command)
}

/// The record has the form of the response (IPMI 2.0, the response of this
/// command): the high nibbles of type and level are reserved, so they are 0.
fn activation(data: &[u8]) -> Said {
    again::<ActivateSession>(data, |record| {
        let mut bytes = vec![record.auth_type.into()];
        bytes.extend(record.session_id.get().to_le_bytes());
        bytes.extend(record.initial_sequence_number.to_le_bytes());
        bytes.push(record.maximum_privilege_level.into());
        bytes
    })
    .unwrap_or_else(fault)
}

/// The command with these parts.
fn activation_command(data: &[u8; 22]) -> Result<ActivateSession, Said> {
    let (challenge, sequence) = data[2..].split_at(16);
    Ok(ActivateSession {
        auth_type: type_of(data[0])?,
        maximum_privilege_level: level_of(data[1])?,
        challenge_string: challenge.try_into().expect("sixteen bytes"),
        initial_sequence_number: u32::from_le_bytes(sequence.try_into().expect("four bytes")),
    })
}

fn activation_request(data: &[u8; 22]) -> Said {
    match activation_command(data) {
        Ok(command) => written(message_data(command)),
        Err(refused) => refused,
    }
}

/// As with the challenge: the bytes say which command it has to be. The
/// challenge, the number being type, level and sequence number.
fn activation_read(data: &[u8]) -> Said {
    let whole: Result<&[u8; 22], _> = data.try_into();
    let Some(command) = whole.ok().and_then(|data| activation_command(data).ok()) else {
        return refused(NOT_A_REQUEST);
    };
    assert_eq!(message_data(command.clone()), data);
    let parts = [
        command.auth_type.into(),
        command.maximum_privilege_level.into(),
    ];
    let mut said = written(command.challenge_string);
    said.number = u64::from(command.initial_sequence_number) << 16;
    said.number += u64::from(u16::from_le_bytes(parts));
    said
}

fn message_data(command: impl Into<Message>) -> Vec<u8> {
    command.into().data().to_vec()
}

/// What is written of the record that the crate reads. It has to read the same
/// record back; the records can be compared only as they are shown.
fn again<C>(data: &[u8], write: fn(&C::Output) -> Vec<u8>) -> Result<Said, C::Error>
where
    C: IpmiCommand<Output: Debug, Error: Debug>,
{
    let record = C::parse_success_response(data)?;
    let bytes = write(&record);
    let back = C::parse_success_response(&bytes).expect("what is written can be read");
    assert_eq!(format!("{back:?}"), format!("{record:?}"));
    Ok(written(bytes))
}
