//! The readers of the six responses and of a list. A record is laid out from the fields that the crate parsed.

use crate::held::{refused, refused_with, Expected, Held};
use crate::inputs::{damaged, each_byte, each_length, each_prefix, each_short, Random};
use ghjalvestru::sys::{self, CAPACITY, KNOWN, PARTS};
use oracle_core::app::auth::{
    ActivateSession, AuthError, ChannelCipherSuites, GetChannelAuthenticationCapabilities,
    GetChannelCipherSuites, GetSessionChallenge,
};
use oracle_core::app::get_channel_access::GetChannelAccess;
use oracle_core::app::get_channel_info::GetChannelInfo;
use oracle_core::connection::{IpmiCommand, NotEnoughData};
use oracle_core::differences;

/// How many bytes of a list an answer has.
const PART: usize = CAPACITY / PARTS;

pub const LONGEST: usize = 40;
const LONGEST_LIST: usize = 1100;

/// docs/DIFFERENCES.md: the message that the crate is asked for in place of one where it is known to answer otherwise.
pub type Instead = fn(&[u8]) -> Option<Vec<u8>>;

pub const NEVER: Instead = |_| None;

/// A reader, what the crate says in its place, and a message that is accepted.
struct Reader {
    name: &'static str,
    refuses: bool,
    longest: usize,
    call: fn(&[u8], &mut [u8]) -> u64,
    expected: fn(&[u8]) -> Expected,
    instead: Instead,
    usual: fn(&mut Random) -> Vec<u8>,
}

const READERS: [Reader; 7] = [
    Reader {
        name: "access",
        refuses: true,
        longest: LONGEST,
        call: sys::access,
        expected: access,
        instead: NEVER,
        usual: |random| random.bytes(2),
    },
    Reader {
        name: "info",
        refuses: true,
        longest: LONGEST,
        call: sys::info,
        expected: info,
        instead: NEVER,
        usual: usual_info,
    },
    Reader {
        name: "capabilities",
        refuses: true,
        longest: LONGEST,
        call: sys::capabilities,
        expected: capabilities,
        instead: NEVER,
        usual: usual_capabilities,
    },
    Reader {
        name: "challenge",
        refuses: true,
        longest: LONGEST,
        call: sys::challenge,
        expected: challenge,
        instead: NEVER,
        usual: usual_challenge,
    },
    Reader {
        name: "activation",
        refuses: true,
        longest: LONGEST,
        call: sys::activation,
        expected: activation,
        instead: differences::activation,
        usual: usual_activation,
    },
    Reader {
        name: "suites",
        refuses: true,
        longest: LONGEST,
        call: sys::suites,
        expected: suites,
        instead: NEVER,
        usual: |random| {
            let length = random.below(17);
            random.bytes(length)
        },
    },
    Reader {
        name: "suite_numbers",
        refuses: false,
        longest: LONGEST_LIST,
        call: sys::suite_numbers,
        expected: suite_numbers,
        instead: NEVER,
        usual: usual_list,
    },
];

pub fn hold(all: &mut Vec<Held>, random: &mut Random, rounds: u64) {
    all.extend(READERS.map(|reader| reader.hold(random, rounds)));
    all.push(collected_suites(random, rounds / 16));
}

/// The suites of a list that a collector heard, in any order; before that it is not complete.
fn collected_suites(random: &mut Random, rounds: u64) -> Held {
    let mut held = Held::new("collector_suites", true);
    for _ in 0..rounds {
        let mut list = usual_list(random);
        list.truncate(CAPACITY);
        let (mut bytes, mut marks, mut known) = ([0; CAPACITY], [0; PARTS], [0; KNOWN]);
        let mut unheard: Vec<u8> = (0..=(list.len() / PART).min(PARTS - 1) as u8).collect();
        while let Some(&lowest) = unheard.iter().min() {
            let incomplete = Err(refused_with(13, lowest));
            held.writes(&list, &incomplete, |_, out| {
                sys::collector_suites(&bytes, &marks, &known, out)
            });
            let index = unheard.swap_remove(random.below(unheard.len()));
            let part = list.chunks(PART).nth(index.into()).unwrap_or(&[]);
            let number = sys::collector_answer(&mut bytes, &mut marks, &mut known, index, part);
            held.says(&[&[index], part].concat(), 0, number);
        }
        held.writes(&list, &suite_numbers(&list), |_, out| {
            sys::collector_suites(&bytes, &marks, &known, out)
        });
    }
    held
}

impl Reader {
    fn hold(&self, random: &mut Random, rounds: u64) -> Held {
        let mut held = Held::new(self.name, self.refuses);
        let mut ask = |data: &[u8]| {
            let answer = held.answer(data, (self.instead)(data), self.expected);
            held.writes(data, &answer, self.call);
        };
        each_short(&mut ask);
        each_length(self.longest, random, &mut ask);
        each_prefix(&self.joined(random)[..self.longest], &mut ask);
        each_byte(&self.joined(random)[..LONGEST], &mut ask);
        for _ in 0..rounds {
            let usual = (self.usual)(random);
            assert!(self.accepts(&usual), "{usual:02X?}");
            ask(&usual);
            damaged(&usual, random).iter().for_each(|data| ask(data));
            let length = random.below(LONGEST + 1);
            ask(&random.bytes(length));
            ask(&random.sparse(length));
        }
        held
    }

    fn accepts(&self, data: &[u8]) -> bool {
        (self.expected)((self.instead)(data).as_deref().unwrap_or(data)).is_ok()
    }

    /// Messages one behind the other, as long as the longest input at least.
    fn joined(&self, random: &mut Random) -> Vec<u8> {
        let mut all = Vec::new();
        while all.len() < self.longest {
            all.extend((self.usual)(random));
        }
        all
    }
}

/// The number that the crate makes into this value; it makes no two into the same.
fn number_of<T: From<u8> + PartialEq>(value: T) -> u8 {
    let numbers = 0..=u8::MAX;
    numbers
        .into_iter()
        .find(|&number| T::from(number) == value)
        .expect("the crate made the value from a number")
}

fn not_enough(_: NotEnoughData) -> u64 {
    refused(1)
}

fn auth_error(error: AuthError) -> u64 {
    match error {
        AuthError::NotEnoughData => refused(1),
        AuthError::InvalidZeroSession => refused(3),
        AuthError::InvalidAuthType(byte) => refused_with(4, byte),
        AuthError::InvalidPrivilegeLevel(byte) => refused_with(5, byte),
    }
}

fn access(data: &[u8]) -> Expected {
    let access = GetChannelAccess::parse_success_response(data).map_err(not_enough)?;
    Ok(vec![
        number_of(access.access_mode),
        access.alerting_disabled.into(),
        access.per_msg_auth_disabled.into(),
        access.user_level_auth_disabled.into(),
        number_of(access.privilege_level_limit),
    ])
}

fn info(data: &[u8]) -> Expected {
    let info = GetChannelInfo::parse_success_response(data).map_err(not_enough)?;
    let mut record = vec![
        info.channel.value(),
        number_of(info.medium_type),
        number_of(info.protocol_type),
        number_of(info.session_support),
        info.active_sessions,
    ];
    record.extend(info.vendor_id.to_le_bytes());
    record.extend([info.aux_info.byte1, info.aux_info.byte2]);
    Ok(record)
}

fn capabilities(data: &[u8]) -> Expected {
    let all = GetChannelAuthenticationCapabilities::parse_success_response(data);
    let all = all.map_err(not_enough)?;
    let flags = [
        all.oem_proprietary,
        all.key,
        all.md5,
        all.md2,
        all.none,
        all.kg_status,
        all.per_message_authentication_enabled,
        all.user_level_authentication_enabled,
        all.non_null_usernames_enabled,
        all.null_usernames_enabled,
        all.anonymous_login_enabled,
        all.ipmi2_connections_supported,
        all.ipmi15_connections_supported,
    ];
    let mut record = vec![all.channel_number];
    record.extend(flags.map(u8::from));
    record.extend(all.oem_id);
    record.push(all.oem_auxiliary_data);
    Ok(record)
}

fn challenge(data: &[u8]) -> Expected {
    let challenge = GetSessionChallenge::parse_success_response(data).map_err(auth_error)?;
    let mut record = challenge.temporary_session_id.get().to_le_bytes().to_vec();
    record.extend(challenge.challenge_string);
    Ok(record)
}

fn activation(data: &[u8]) -> Expected {
    let begun = ActivateSession::parse_success_response(data).map_err(auth_error)?;
    let mut record = vec![begun.auth_type.into()];
    record.extend(begun.session_id.get().to_le_bytes());
    record.extend(begun.initial_sequence_number.to_le_bytes());
    record.push(begun.maximum_privilege_level.into());
    Ok(record)
}

/// The crate's error has no name outside its module, and one value.
fn suites(data: &[u8]) -> Expected {
    match GetChannelCipherSuites::parse_success_response(data) {
        Ok(part) => Ok(part.to_vec()),
        Err(_) => Err(refused(2)),
    }
}

fn suite_numbers(list: &[u8]) -> Expected {
    let suites = ChannelCipherSuites::parse_full_data(list);
    Ok(suites.map(|suite| suite.id()).collect())
}

pub fn usual_info(random: &mut Random) -> Vec<u8> {
    let mut data = random.bytes(9);
    data[0] = data[0] / 16 * 16 + random.one_of(&[0, 1, 2, 5, 10, 11, 14, 15]);
    data
}

/// With bit 7 of byte 1 there is an eighth byte.
pub fn usual_capabilities(random: &mut Random) -> Vec<u8> {
    let mut data = random.bytes(8);
    if data[1] < 0x80 {
        data.truncate(7);
    }
    data
}

pub fn usual_challenge(random: &mut Random) -> Vec<u8> {
    let mut data = random.bytes(20);
    if data.starts_with(&[0; 4]) {
        data[0] = 1;
    }
    data
}

pub fn usual_activation(random: &mut Random) -> Vec<u8> {
    let mut data = random.bytes(10);
    let reserved = random.byte() / 16 * 16;
    data[0] = random.one_of(&[0, reserved]) + random.one_of(&[0, 1, 2, 4]);
    // Sessions with a single byte that is not zero, so that the damaged ones have none.
    if random.below(4) == 0 {
        data[1..5].fill(0);
    }
    if data[1..5] == [0; 4] {
        data[1 + random.below(4)] = 1;
    }
    data[9] = data[9] / 16 * 16 + random.one_of(&[1, 2, 3, 4, 5]);
    data
}

/// Records, a few among them of unknown numbers; most lists are short.
pub fn usual_list(random: &mut Random) -> Vec<u8> {
    let most = random.one_of(&[2, 2, 4, 4, 4, 8, 8, 220]);
    let mut list = Vec::new();
    for _ in 0..=random.below(most) {
        let [a, i, c] = random.array();
        match random.below(40) {
            0 => list.extend([0xC0, random.byte()]),
            1 => list.extend([0xC0, 0xC0]),
            2 => list.push(random.byte()),
            _ => list.extend([0xC0, random.byte() % 20, a, i, c]),
        }
    }
    list.truncate(LONGEST_LIST);
    list
}
