//! Histories that are made from a few numbers, so that a question is short. The
//! README says each of them in words.

use crate::by_suite::{CHANNELS, CURRENT};
use crate::collector::{answer_of, Answer, CAPACITY};
use crate::text::{hash, OFFSET};

/// How many kinds of honest histories there are.
pub const KINDS: u8 = 6;

/// A linear congruential generator: it needs no more than a multiplication, and
/// its high bits are good enough here.
pub(crate) struct Random(u32);

impl Random {
    /// From the bytes of the question, spread by the hash.
    pub(crate) fn new(seed: &[u8]) -> Self {
        Self(hash(seed, OFFSET))
    }

    /// The next number of 16 bits.
    pub(crate) fn next(&mut self) -> usize {
        self.0 = self.0.wrapping_mul(1_664_525).wrapping_add(1_013_904_223);
        (self.0 >> 16) as usize
    }
}

/// What a controller with a random list of this length answers; the kind says
/// in which order and which of it is lost.
pub fn honest(length: usize, kind: u8, seed: u8) -> Vec<Answer> {
    let [high, low] = (length as u16).to_be_bytes();
    let mut random = Random::new(&[high, low, kind, seed]);
    let list: Vec<u8> = (0..length).map(|_| random.next() as u8).collect();
    let last = (length / 16).min(63);
    let factor = random.next() % 32 * 2 + 1;
    let offset = random.next() % 64;

    let mut history = Vec::new();
    for turn in 0..128 {
        let number = random.next();
        let scattered = (factor * turn + offset) % 64;
        let (index, heard) = match (kind, turn) {
            (0, 0..=63) => (turn, turn <= last),
            (1, 0..=63) => (63 - turn, 63 - turn <= last),
            (2, 0..=63) => (scattered, scattered <= last),
            (3, 0..=63) => (number % (last + 1), true),
            (3, _) => (turn - 64, turn - 64 <= last),
            (4, 0..=63) => (scattered, scattered <= last && number % 4 != 0),
            (5, 0..=63) => (scattered, true),
            _ => (0, false),
        };
        if heard {
            history.push(answer_of(&list, index as u8));
        }
    }
    history
}

/// Mostly from one list, with damage.
pub fn random(seed: &[u8; 4]) -> Vec<Answer> {
    let mut random = Random::new(seed);
    let class = random.next() % 8;
    let number = random.next();
    let length = match class {
        0 => number % (CAPACITY + 1),
        1 => CAPACITY - number % 40,
        2 => number % 65 * 16,
        _ => number % 100,
    };
    // Few values bring many zeros, and parts that are equal by chance.
    let values = if random.next() % 2 == 0 { 256 } else { 2 };
    let list: Vec<u8> = (0..length)
        .map(|_| (random.next() % values) as u8)
        .collect();
    let last = (length / 16).min(63);

    let count = random.next() % 80 + 1;
    (0..count)
        .map(|_| damaged(&list, last, &mut random))
        .collect()
}

fn damaged(list: &[u8], last: usize, random: &mut Random) -> Answer {
    let draws = [(); 5].map(|()| random.next());
    let [which, place, damage, amount, change] = draws;
    let index = match which % 16 {
        0 => place % 256,
        1 => 63,
        2 => place % 66,
        _ => place % (last + 2),
    };
    let mut answer = answer_of(list, index as u8);
    let bytes = &mut answer.bytes;
    match damage % 32 {
        // Cut, or made longer by zeros.
        0 => bytes.resize(amount % 17, 0x00),
        1 => bytes.resize(16, 0x00),
        2 => bytes.resize(bytes.len() + 1, 0x00),
        3 => bytes.resize(17 + amount % 16, 0x00),
        4 => bytes.clear(),
        5 | 6 if !bytes.is_empty() => {
            let place = amount % bytes.len();
            bytes[place] = bytes[place].wrapping_add((change % 255 + 1) as u8);
        }
        _ => {}
    }
    answer
}

/// The same by suite, and the channel that its collector is made for: mostly
/// from one channel, with damage there too.
pub fn by_suite(seed: &[u8; 4]) -> (u8, Vec<Answer>) {
    let mut history = self::random(seed);
    let mut random = Random::new(&[&seed[..], &[0x0C]].concat());
    let draws = [(); 3].map(|()| random.next());
    let [whose, channel, other] = draws;
    let any = |number: usize| CHANNELS[number % CHANNELS.len()];
    let made_for = if whose % 3 == 0 {
        CURRENT
    } else {
        any(channel)
    };
    let number = match (made_for, whose % 8) {
        (CURRENT, _) | (_, 0) => any(other),
        _ => made_for,
    };
    for answer in &mut history {
        let [kind, first] = [(); 2].map(|()| random.next());
        let low = match kind % 32 {
            0 => 0xC,
            1 => 0xD,
            2 => CURRENT,
            3 | 4 => any(first),
            _ => number,
        };
        let high = (first / 16 % 16 * 16) as u8;
        answer.bytes.insert(0, high + low);
        if kind % 64 == 63 {
            answer.bytes.clear();
        }
    }
    (made_for, history)
}

/// Two answers, of these indexes and lengths, with the bytes of one list: only
/// their lengths can disagree.
pub fn pair(one: (u8, u8), other: (u8, u8)) -> Vec<Answer> {
    [one, other].map(counted).to_vec()
}

/// The byte at place p of the whole is p modulo 251.
pub fn counted((index, length): (u8, u8)) -> Answer {
    let start = 16 * usize::from(index);
    Answer {
        index,
        bytes: (start..start + usize::from(length))
            .map(|place| (place % 251) as u8)
            .collect(),
    }
}
