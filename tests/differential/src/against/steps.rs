//! The reading of a list, one step at a time. What a step gives comes from the crate's iterator; how far it moves is read
//! off what the crate gives when other bytes follow.

use super::readers::{usual_list, LONGEST};
use crate::held::Held;
use crate::inputs::{damaged, each_length, each_short, Random};
use ghjalvestru::sys::{self, NONE};
use oracle_core::app::auth::ChannelCipherSuites;

/// A number that a record can have, and another one.
const NUMBERS: [u8; 2] = [3, 17];

/// What a step leaves behind.
#[derive(Debug, PartialEq)]
struct State {
    number: u64,
    position: usize,
    failed: u8,
}

pub fn hold(random: &mut Random, rounds: u64) -> Held {
    let mut held = Held::new("suite_step", false);
    each_short(|list| whole(&mut held, list));
    each_length(LONGEST, random, |list| whole(&mut held, list));
    for _ in 0..rounds / 4 {
        let list = usual_list(random);
        for list in damaged(&list, random) {
            whole(&mut held, &list);
            let place = random.below(list.len() + 8);
            step(&mut held, &list, place, 0);
            // Whatever was not 0 has failed.
            let failed = random.byte().max(1);
            step(&mut held, &list, place, failed);
        }
        step(&mut held, &list, usize::MAX, 0);
    }
    held
}

/// All steps from the start, and three more, side by side with one iterator of the crate.
fn whole(held: &mut Held, list: &[u8]) {
    let mut reading = ChannelCipherSuites::parse_full_data(list);
    let (mut position, mut failed) = (0, 0);
    let mut after_end = 0;
    while after_end < 3 {
        let expected = reading.next().map_or(NONE, |suite| suite.id().into());
        let said = step(held, list, position, failed);
        if said.number != expected {
            held.differs(
                list,
                &format!("from {position}: {expected:#X}"),
                &format!("{said:?}"),
            );
        }
        if said.position == position {
            after_end += 1;
        }
        (position, failed) = (said.position, said.failed);
    }
}

/// One step from any place, with or without the mark.
fn step(held: &mut Held, list: &[u8], place: usize, mark: u8) -> State {
    let (mut position, mut failed) = (place, mark);
    let lent = list.to_vec();
    let number = sys::suite_step(&lent, &mut position, &mut failed);
    let said = State {
        number,
        position,
        failed,
    };
    let expected = match mark {
        0 => after(list, place),
        _ => State {
            number: NONE,
            position: place,
            failed: 1,
        },
    };
    held.says(list, expected.number, number);
    if said != expected || lent != list {
        held.differs(
            list,
            &format!("from {place}: {expected:?}"),
            &format!("{said:?}"),
        );
    }
    said
}

/// By the crate. It shows how many bytes a step takes: behind these, and no others, a record of any number is read whole by
/// the next step. Where the list ends within a record, the step takes what there is; the crate would give a suite if the
/// rest of a record followed. All else marks the reading as failed; that it takes one byte is document 01's word, as the
/// crate gives nothing from there on.
fn after(list: &[u8], place: usize) -> State {
    let rest = list.get(place..).unwrap_or_default();
    let [number, _] = two(&[rest]);
    let state = |taken, failed| State {
        number,
        position: place + taken,
        failed,
    };
    if rest.is_empty() {
        return state(0, 0);
    }
    for taken in 1..=rest.len().min(5) {
        let follows = |n: u8| two(&[&rest[..taken], &[0xC0, n, 0, 0, 0]])[1] == u64::from(n);
        if NUMBERS.into_iter().all(follows) {
            return state(taken, 0);
        }
    }
    if number == NONE && two(&[rest, &[NUMBERS[0], 0, 0, 0]])[0] != NONE {
        return state(rest.len(), 0);
    }
    state(1, 1)
}

/// What the crate's first two steps give.
fn two(parts: &[&[u8]]) -> [u64; 2] {
    // A step takes five bytes at most, so two steps need no more of a part than this.
    let start: Vec<u8> = parts
        .iter()
        .flat_map(|part| part.iter().take(12))
        .copied()
        .collect();
    let mut reading = ChannelCipherSuites::parse_full_data(&start);
    [(); 2].map(|()| reading.next().map_or(NONE, |suite| suite.id().into()))
}
