//! Functions between numbers: the strength of authentication types, the table of suites.

use super::requests::auth_type;
use crate::held::{Expected, Held};
use crate::inputs::Random;
use ghjalvestru::sys::{self, NONE};
use oracle_core::app::auth::{CipherSuite, GetChannelAuthenticationCapabilities};
use oracle_core::connection::IpmiCommand;
use std::cmp::Ordering;
use std::panic::{catch_unwind, set_hook, take_hook};

/// The algorithms of a record have six bits.
const ALGORITHMS: u8 = 0x40;

/// docs/DIFFERENCES.md: the crate's `confidentiality` says something else, or panics.
const OTHERWISE: [u8; 9] = [2, 4, 5, 7, 8, 10, 11, 12, 13];
const PANICS: [u8; 4] = [16, 17, 18, 19];

pub fn hold(all: &mut Vec<Held>, random: &mut Random, rounds: u64) {
    all.push(best_auth(random));
    all.push(compare_strength());
    all.push(suite_algorithms());
    all.push(suite_of(random, rounds));
    all.push(confidentiality());
}

/// All sixteen offers, with any number for what is offered.
fn best_auth(random: &mut Random) -> Held {
    let mut held = Held::new("best_auth", false);
    for turn in 0..16 * 256 {
        let offered = [0, 1, 2, 3].map(|bit| turn >> bit & 1 == 1);
        let given = offered.map(|offered| if offered { random.byte().max(1) } else { 0 });
        let [key, md5, md2, none] = given;
        held.says(
            &given,
            best_of(offered),
            sys::best_auth(key, md5, md2, none),
        );
    }
    held
}

/// By the record that the crate reads from an answer with these offers.
fn best_of([key, md5, md2, none]: [bool; 4]) -> u64 {
    let byte = [key, md5, md2, none].map(u8::from);
    let byte = 0x10 * byte[0] + 0x04 * byte[1] + 0x02 * byte[2] + byte[3];
    let data = [0x01, byte, 0, 0, 0, 0, 0];
    let all = GetChannelAuthenticationCapabilities::parse_success_response(&data);
    let all = all.expect("seven bytes are enough");
    assert_eq!([all.key, all.md5, all.md2, all.none], [key, md5, md2, none]);
    all.best_auth().map_or(NONE, |best| u8::from(best).into())
}

fn compare_strength() -> Held {
    let mut held = Held::new("compare_strength", false);
    for one in 0..=u8::MAX {
        for other in 0..=u8::MAX {
            let said = sys::compare_strength(one, other);
            held.says(
                &[one, other],
                strength(one, other).unwrap_or_else(|n| n),
                said,
            );
        }
    }
    held
}

fn strength(one: u8, other: u8) -> Result<u64, u64> {
    let one = auth_type(one)?;
    Ok(match one.compare_strength(&auth_type(other)?) {
        Ordering::Less => 0,
        Ordering::Equal => 1,
        Ordering::Greater => 2,
    })
}

fn suite_algorithms() -> Held {
    // What has no row is not refused, but nothing is written.
    let mut held = Held::new("suite_algorithms", true);
    for number in 0..=u8::MAX {
        let row = |suite: CipherSuite| suite.into_suite().to_vec();
        let expected: Expected = CipherSuite::from_id(number).map(row).ok_or(NONE);
        held.writes(&[number], &expected, |given, out| {
            sys::suite_algorithms(given[0], out)
        });
    }
    held
}

fn suite_of(random: &mut Random, rounds: u64) -> Held {
    let mut held = Held::new("suite_of", false);
    let mut ask = |[a, i, c]: [u8; 3]| {
        let expected = CipherSuite::from_suite([a, i, c]).map_or(NONE, |suite| suite.id().into());
        held.says(&[a, i, c], expected, sys::suite_of(a, i, c));
    };
    for a in 0..ALGORITHMS {
        for i in 0..ALGORITHMS {
            for c in 0..ALGORITHMS {
                ask([a, i, c]);
            }
        }
    }
    for _ in 0..rounds {
        ask(random.array());
        // A row, or one number beside it.
        let number = random.byte() % 20;
        let mut row = CipherSuite::from_id(number)
            .expect("one of twenty")
            .into_suite();
        ask(row);
        row[random.below(3)] = random.byte();
        ask(row);
    }
    held
}

/// The one listed difference: exactly its suites are excepted.
fn confidentiality() -> Held {
    let mut held = Held::new("confidentiality", false);
    let hook = take_hook();
    set_hook(Box::new(|_| {}));
    for number in 0..20 {
        let suite = CipherSuite::from_id(number).expect("one of twenty");
        let crates = catch_unwind(|| u64::from(u8::from(suite.confidentiality())));
        let mut row = [0; 3];
        sys::suite_algorithms(number, &mut row);
        let ours = row[2].into();
        match crates {
            Ok(other) if OTHERWISE.contains(&number) && other != ours => held.excepted += 1,
            Err(_) if PANICS.contains(&number) => held.excepted += 1,
            Ok(other) if !OTHERWISE.contains(&number) => held.says(&[number], other, ours),
            other => held.differs(
                &[number],
                &format!("{other:?}"),
                &format!("{ours}, unlisted"),
            ),
        }
    }
    set_hook(hook);
    held
}
