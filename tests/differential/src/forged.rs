//! Collectors whose two stored bytes are set by hand: any others than those that a search finds are refused with 9 at every
//! entry, whatever else is asked, and nothing changes.

use crate::inputs::Random;
use crate::port::Port;
use collector_model::collector::{Answer, Collector, Hears, Status, Verdict};
use collector_model::history::{counted, honest, random as damaged};
use ghjalvestru::sys::{self, KNOWN, MISSING, PARTS, REFUSED};
use std::hint::black_box;

const NO_FORM: u64 = REFUSED + 9;
const INCOMPLETE: u64 = REFUSED + 13;

/// What a buffer holds before a call, and how many bytes: as many as the longest list.
const FILL: u8 = 0xA5;
const ROOM: usize = 1024;

/// How many pairs each random collector gets.
const PAIRS: usize = 64;
/// How many rounds make one such collector.
const ROUNDS: u64 = 100;

/// How many differences are printed.
const SHOWN: u64 = 5;

/// What the entries answered: an answer to the arrays, one to the whole, the status, the list, the suites; and whether no lent
/// byte changed.
struct Said {
    numbers: [u64; 5],
    unchanged: bool,
}

fn said(port: Port, answer: &Answer, room: usize) -> Said {
    let Answer { index, bytes } = answer;
    let (mut arrays, mut whole) = (port, port.0);
    let (mut read, mut known) = (port.0, port.known());
    let (mut list, mut suites) = ([FILL; ROOM], [FILL; ROOM]);
    let numbers = [
        arrays.answer(*index, bytes),
        sys::collector_take(&mut whole, *index, bytes),
        sys::collector_status(&read.bytes, &read.marks, &known),
        sys::collector_list(&read.bytes, &read.marks, &known, &mut list[..room]),
        sys::collector_suites(&read.bytes, &read.marks, &known, &mut suites[..room]),
    ];
    // The compiler takes it that what was lent to be read is as it was.
    black_box((&mut read, &mut known));
    let filled = [list, suites].concat().iter().all(|&byte| byte == FILL);
    let kept = read == port.0 && known == port.known();
    let unchanged = filled && kept && arrays == port && whole == port.0;
    Said { numbers, unchanged }
}

#[derive(Default)]
struct Forged {
    collectors: u64,
    complete: u64,
    pairs: u64,
    answers: u64,
    differ: u64,
}

/// A collector that a history makes, and an answer that it accepted, or a fresh one does.
struct Made {
    port: Port,
    repeat: Answer,
}

impl Forged {
    /// What the history makes, by the model too; accepted as it is.
    fn make(&mut self, history: &[Answer]) -> Made {
        let (mut port, mut model) = (Port::fresh(), Collector::fresh());
        let mut repeat = counted((0, 0));
        for answer in history {
            let verdict = model.hear(answer);
            assert_eq!(port.hear(answer), verdict);
            if verdict == Verdict::Accepted {
                repeat = answer.clone();
            }
        }
        let (status, list) = match model.status() {
            Status::Complete(list) => (list.len() as u64, list.len() as u64),
            Status::Missing(index) => {
                assert_eq!(port.known(), [index, 0]);
                let index = u64::from(index);
                (MISSING + index, INCOMPLETE + 256 * index)
            }
        };
        self.collectors += 1;
        self.complete += u64::from(status < MISSING);
        let Said { numbers, .. } = said(port, &repeat, ROOM);
        let accepted =
            numbers[..4] == [0, 0, status, list] && (numbers[4] < MISSING || numbers[4] == list);
        self.counts(accepted, || format!("{numbers:X?} of the right pair"));
        Made { port, repeat }
    }

    /// With other values than the right ones, which are passed over.
    fn forge(&mut self, made: &Made, known: [u8; KNOWN]) {
        let right = made.port.known();
        if known == right {
            return;
        }
        let mut port = made.port;
        port.set(known);
        // Also where another refusal would come, and where there is no room.
        let answers = [(0, 16), (right[0], 16), (64, 1), (63, 17), (0, 0)];
        let turn = self.pairs as usize % (answers.len() + 1);
        let answer = answers
            .get(turn)
            .map_or(made.repeat.clone(), |&it| counted(it));
        let room = if self.pairs % 7 == 0 { 0 } else { ROOM };
        let Said { numbers, unchanged } = said(port, &answer, room);
        self.pairs += 1;
        self.counts(unchanged && numbers == [NO_FORM; 5], || {
            format!("{known:?} for {right:?}: {numbers:X?}, unchanged: {unchanged}")
        });
    }

    fn counts(&mut self, holds: bool, what: impl FnOnce() -> String) {
        self.answers += 5;
        if !holds {
            self.differ += 1;
            if self.differ <= SHOWN {
                println!("differs: stored bytes {}", what());
            }
        }
    }

    /// Every value of each of the two bytes, and every lowest index with the other of the two.
    fn each(&mut self, history: &[Answer]) {
        let made = self.make(history);
        let [lowest, complete] = made.port.known();
        for value in 0..=u8::MAX {
            self.forge(&made, [value, complete]);
            self.forge(&made, [lowest, value]);
            self.forge(&made, [value, 1 - complete]);
        }
    }

    /// Pairs that are near, that other collectors have, that the last answer found, and any.
    fn some(&mut self, history: &[Answer], random: &mut Random) {
        let Some((_, before)) = history.split_last() else {
            return;
        };
        let (stale, made) = (self.make(before), self.make(history));
        let [lowest, complete] = made.port.known();
        self.forge(&made, stale.port.known());
        for _ in 0..PAIRS {
            let index = random.below(PARTS + 1) as u8;
            let near = [lowest.wrapping_add(1), lowest.wrapping_sub(1), lowest];
            let known = match random.below(4) {
                0 => [index, random.below(2) as u8],
                1 => [
                    random.one_of(&near),
                    random.one_of(&[complete, 1 - complete]),
                ],
                2 => [lowest, random.byte()],
                _ => random.array(),
            };
            self.forge(&made, known);
        }
    }
}

/// Of lists of some lengths, heard in order, with losses, and at all indexes; up to a place and whole.
fn histories() -> Vec<Vec<Answer>> {
    let mut all = vec![vec![]];
    for length in [0, 1, 16, 19, 500, 1008, 1023, 1024] {
        for kind in [0, 4, 5] {
            let history = honest(length, kind, 0);
            all.push(history[..history.len() / 2].to_vec());
            all.push(history);
        }
    }
    all
}

/// Prints a line. Is each refused?
pub fn all(seed: u64, rounds: u64) -> bool {
    let mut forged = Forged::default();
    for history in histories() {
        forged.each(&history);
    }
    let mut random = Random::new(seed);
    for _ in 0..rounds / ROUNDS {
        let history = damaged(&random.array());
        let end = random.below(history.len() + 1);
        forged.some(&history[..end], &mut random);
    }
    let Forged {
        collectors,
        complete,
        pairs,
        answers,
        differ,
    } = forged;
    println!(
        "collector: {collectors} collectors, {complete} of them complete, accepted with what is stored, refused 9 and left as they \
         are with {pairs} other pairs: {answers} answers, {differ} times otherwise"
    );
    differ == 0 && 0 < complete && complete < collectors
}
