//! The Rust crate over the C functions, beside the crate whose names it has: the same calls, shown alike.

use super::readers::{
    usual_activation, usual_capabilities, usual_challenge, usual_info, usual_list, Instead,
    LONGEST, NEVER,
};
use crate::held::Held;
use crate::inputs::{damaged, each_short, Random};
use ghjalvestru::app as ours;
use ghjalvestru::app::auth as our_auth;
use ghjalvestru::connection as our_connection;
use oracle_core::app::{auth, get_channel_access as access, get_channel_info as info};
use oracle_core::connection::{self, IpmiCommand};
use oracle_core::differences;
use std::fmt::{Debug, Display};

type Show = fn(&[u8]) -> String;

/// A reader of the crate's and ours, and a message that both accept.
struct Read {
    name: &'static str,
    refuses: bool,
    usual: fn(&mut Random) -> Vec<u8>,
    expected: Show,
    instead: Instead,
    said: Show,
}

const READS: [Read; 7] = [
    Read {
        name: "Rust, access",
        refuses: true,
        usual: |random| random.bytes(2),
        expected: |data| show(access::GetChannelAccess::parse_success_response(data)),
        instead: NEVER,
        said: |data| show(ours::ChannelAccess::parse(data)),
    },
    Read {
        name: "Rust, info",
        refuses: true,
        usual: usual_info,
        expected: |data| show(info::GetChannelInfo::parse_success_response(data)),
        instead: NEVER,
        said: |data| show(ours::ChannelInfo::parse(data)),
    },
    Read {
        name: "Rust, capabilities",
        refuses: true,
        usual: usual_capabilities,
        expected: |data| {
            let all = auth::GetChannelAuthenticationCapabilities::parse_success_response(data);
            show(all.map(|all| (all.best_auth(), all)))
        },
        instead: NEVER,
        said: |data| {
            let all = our_auth::ChannelAuthenticationCapabilities::parse(data);
            show(all.map(|all| (all.best_auth(), all)))
        },
    },
    Read {
        name: "Rust, challenge",
        refuses: true,
        usual: usual_challenge,
        expected: |data| show(auth::GetSessionChallenge::parse_success_response(data)),
        instead: NEVER,
        said: |data| show(our_auth::SessionChallenge::parse(data)),
    },
    Read {
        name: "Rust, activation",
        refuses: true,
        usual: usual_activation,
        expected: |data| show(auth::ActivateSession::parse_success_response(data)),
        instead: differences::activation,
        said: |data| show(our_auth::BeginSessionInfo::parse(data)),
    },
    Read {
        name: "Rust, suites",
        refuses: true,
        usual: |random| random.bytes(16),
        expected: |data| show(auth::GetChannelCipherSuites::parse_success_response(data)),
        instead: NEVER,
        said: |data| show(our_auth::ChannelCipherSuites::parse(data)),
    },
    // Steps that give nothing too, and some behind the end.
    Read {
        name: "Rust, list",
        refuses: false,
        usual: usual_list,
        expected: |list| {
            let mut reading = auth::ChannelCipherSuites::parse_full_data(list);
            steps(list, || reading.next().map(|suite| (suite, suite.id())))
        },
        instead: NEVER,
        said: |list| {
            let mut reading = our_auth::ChannelCipherSuites::parse_full_data(list);
            steps(list, || reading.next().map(|suite| (suite, suite.id())))
        },
    },
];

pub fn hold(all: &mut Vec<Held>, random: &mut Random, rounds: u64) {
    all.extend(READS.map(|read| read.hold(random, rounds)));
    let mut held = Held::new("Rust, numbers", false);
    for number in 0..=u8::MAX {
        from_number(&mut held, number);
        try_from_number(&mut held, number);
    }
    all.push(held);
    all.push(requests(random, rounds));
}

impl Read {
    fn hold(&self, random: &mut Random, rounds: u64) -> Held {
        let mut held = Held::new(self.name, self.refuses);
        let mut ask = |data: &[u8]| {
            let answer = held.answer(data, (self.instead)(data), self.expected);
            held.shows(data, &answer, &(self.said)(data));
        };
        each_short(&mut ask);
        for _ in 0..rounds {
            let data = (self.usual)(random);
            ask(&data);
            for data in damaged(&data, random) {
                ask(&data);
            }
            let length = random.below(LONGEST + 1);
            ask(&random.bytes(length));
        }
        held
    }
}

fn show(value: impl Debug) -> String {
    format!("{value:?}")
}

fn steps<T: Debug>(list: &[u8], mut next: impl FnMut() -> T) -> String {
    show((0..list.len() / 2 + 3).map(|_| next()).collect::<Vec<_>>())
}

/// What a number is made into: the value, and its text.
fn both<T: Debug + Display>(value: T) -> String {
    format!("{value:?} {value}")
}

/// What the crate gives as an `Option` where we refuse.
fn or_none<T, E>(answer: Result<T, E>) -> Option<T> {
    answer.ok()
}

/// What is made from every number, with its text.
fn from_number(held: &mut Held, n: u8) {
    let mut same = |expected: String, said: String| held.shows(&[n], &expected, &said);
    same(
        both(access::ChannelAccessMode::from(n)),
        both(ours::ChannelAccessMode::from(n)),
    );
    same(
        both(access::ChannelPrivilegeLevel::from(n)),
        both(ours::ChannelPrivilegeLevel::from(n)),
    );
    same(
        both(info::ChannelMediumType::from(n)),
        both(ours::ChannelMediumType::from(n)),
    );
    same(
        both(info::ChannelProtocolType::from(n)),
        both(ours::ChannelProtocolType::from(n)),
    );
    same(
        both(info::ChannelSessionSupport::from(n)),
        both(ours::ChannelSessionSupport::from(n)),
    );
    same(
        show(connection::Channel::new(n).map(both)),
        show(or_none(our_connection::Channel::new(n)).map(both)),
    );
}

/// What is made from some numbers.
fn try_from_number(held: &mut Held, n: u8) {
    let low = differences::auth_type(n).map(|low| vec![low]);
    let auth_type = held.answer(&[n], low, |given| named::<auth::AuthType>(given[0]));
    let mut same = |expected: String, said: String| held.shows(&[n], &expected, &said);
    same(auth_type, named::<our_auth::AuthType>(n));
    same(
        named::<auth::PrivilegeLevel>(n),
        named::<our_auth::PrivilegeLevel>(n),
    );
    same(
        named::<auth::AuthenticationAlgorithm>(n),
        named::<our_auth::AuthenticationAlgorithm>(n),
    );
    same(
        named::<auth::IntegrityAlgorithm>(n),
        named::<our_auth::IntegrityAlgorithm>(n),
    );
    same(
        named::<auth::ConfidentialityAlgorithm>(n),
        named::<our_auth::ConfidentialityAlgorithm>(n),
    );
    let suite = auth::CipherSuite::from_id(n);
    let our_suite = our_auth::CipherSuite::from_id(n);
    same(
        show(suite.map(|s| (s, s.id(), s.into_suite(), s.authentication(), s.integrity()))),
        show(our_suite.map(|s| (s, s.id(), s.into_suite(), s.authentication(), s.integrity()))),
    );
}

/// The value, and its number again.
fn named<T: TryFrom<u8> + Into<u8> + Debug + Copy>(number: u8) -> String {
    show(T::try_from(number).ok().map(|value| (value, value.into())))
}

fn message(message: impl Into<connection::Message>) -> (u8, u8, Vec<u8>) {
    let message = message.into();
    (message.netfn_raw(), message.cmd(), message.data().to_vec())
}

fn our_message(message: impl Into<our_connection::Message>) -> (u8, u8, Vec<u8>) {
    let message = message.into();
    (message.netfn_raw(), message.cmd(), message.data().to_vec())
}

/// All six commands of a random channel, type, level, index, name and challenge.
fn requests(random: &mut Random, rounds: u64) -> Held {
    let mut held = Held::new("Rust, requests", false);
    for _ in 0..rounds {
        let [c, a, l, index, sequence] = random.array();
        let name: String = (0..random.below(20))
            .map(|_| random.one_of(&['a', '\0', 'é']))
            .collect();
        let challenge = random.array();
        let given = [c % 16, a % 5, l, index % 80, sequence];
        let expected = crates_messages(given, &name, challenge);
        let said = our_messages(given, &name, challenge);
        held.shows(
            &[&given, name.as_bytes()].concat(),
            &show(expected),
            &show(said),
        );
    }
    held
}

/// Netfn, command number and data.
type Sent = Option<(u8, u8, Vec<u8>)>;

fn crates_messages(given: [u8; 5], name: &str, challenge_string: [u8; 16]) -> Vec<Sent> {
    let [c, a, l, index, sequence] = given;
    let mut all = Vec::new();
    if let Some(channel) = connection::Channel::new(c) {
        all.push(Some(message(access::GetChannelAccess::non_volatile(
            channel,
        ))));
        all.push(Some(message(access::GetChannelAccess::volatile(channel))));
        all.push(Some(message(info::GetChannelInfo::new(channel))));
        all.push(auth::GetChannelCipherSuites::new(channel, index).map(message));
        if let Ok(level) = auth::PrivilegeLevel::try_from(l) {
            let command = auth::GetChannelAuthenticationCapabilities::new(channel, level);
            all.push(Some(message(command)));
        }
    }
    if let (Ok(auth_type), Ok(level)) = (a.try_into(), l.try_into()) {
        all.push(Some(message(auth::ActivateSession {
            auth_type,
            maximum_privilege_level: level,
            challenge_string,
            initial_sequence_number: u32::from(sequence) << 20,
        })));
        let command = auth::GetSessionChallenge::new(auth_type, Some(name));
        all.push(command.map(|c| (0, u8::from(c.auth_type()), c.username().into())));
        all.push(command.map(message));
        all.push(auth::GetSessionChallenge::new(auth_type, None).map(message));
    }
    all
}

fn our_messages(given: [u8; 5], name: &str, challenge_string: [u8; 16]) -> Vec<Sent> {
    let [c, a, l, index, sequence] = given;
    let mut all = Vec::new();
    if let Ok(channel) = our_connection::Channel::new(c) {
        all.push(Some(our_message(ours::GetChannelAccess::non_volatile(
            channel,
        ))));
        all.push(Some(our_message(ours::GetChannelAccess::volatile(channel))));
        all.push(Some(our_message(ours::GetChannelInfo::new(channel))));
        all.push(or_none(our_auth::GetChannelCipherSuites::new(channel, index)).map(our_message));
        if let Ok(level) = our_auth::PrivilegeLevel::try_from(l) {
            let command = our_auth::GetChannelAuthenticationCapabilities::new(channel, level);
            all.push(Some(our_message(command)));
        }
    }
    if let (Ok(auth_type), Ok(level)) = (a.try_into(), l.try_into()) {
        all.push(Some(our_message(our_auth::ActivateSession {
            auth_type,
            maximum_privilege_level: level,
            challenge_string,
            initial_sequence_number: u32::from(sequence) << 20,
        })));
        let command = or_none(our_auth::GetSessionChallenge::new(auth_type, Some(name)));
        all.push(
            command
                .as_ref()
                .map(|c| (0, u8::from(c.auth_type()), c.username().into())),
        );
        all.push(command.map(our_message));
        all.push(or_none(our_auth::GetSessionChallenge::new(auth_type, None)).map(our_message));
    }
    all
}
