//! One function held against the crate or the model, and the count of its answers.

use ghjalvestru::sys::REFUSED;
use std::fmt;

const NO_ROOM: u64 = REFUSED + 11;

/// How many bytes a buffer has behind what is written, and one that is refused.
const BEHIND: usize = 3;
const SOME: usize = 40;

/// How many differences of a function are printed.
const SHOWN: u64 = 5;

/// What has to be said: the bytes to be written, or the number that C gives when it writes none.
pub type Expected = Result<Vec<u8>, u64>;

pub fn refused(refusal: u64) -> u64 {
    REFUSED + refusal
}

pub fn refused_with(refusal: u64, carried: u8) -> u64 {
    REFUSED + refusal + 256 * u64::from(carried)
}

pub struct Held {
    name: &'static str,
    /// Is some of what is asked to be refused?
    refuses: bool,
    pub answers: u64,
    accepted: u64,
    refused: u64,
    pub differ: u64,
    pub excepted: u64,
}

impl Held {
    pub fn new(name: &'static str, refuses: bool) -> Self {
        Self {
            name,
            refuses,
            answers: 0,
            accepted: 0,
            refused: 0,
            differ: 0,
            excepted: 0,
        }
    }

    /// Asked with bytes to spare, with just enough and with one too few; where there is nothing to write, with some and with
    /// none. Each buffer is an allocation of its own, so that a checker of memory sees a byte beside it.
    pub fn writes(
        &mut self,
        given: &[u8],
        expected: &Expected,
        call: impl Fn(&[u8], &mut [u8]) -> u64,
    ) {
        let lent = given.to_vec();
        match expected {
            Ok(bytes) => {
                let length = bytes.len();
                self.accepted += 1;
                self.asks(&lent, length + BEHIND, length as u64, bytes, &call);
                self.asks(&lent, length, length as u64, bytes, &call);
                if length > 0 {
                    self.asks(&lent, length - 1, NO_ROOM, &[], &call);
                }
            }
            Err(number) => {
                self.refused += 1;
                self.asks(&lent, SOME, *number, &[], &call);
                self.asks(&lent, 0, *number, &[], &call);
            }
        }
        if lent != given {
            self.differs(given, "the bytes that were read", "other ones");
        }
    }

    fn asks(
        &mut self,
        given: &[u8],
        room: usize,
        number: u64,
        bytes: &[u8],
        call: &impl Fn(&[u8], &mut [u8]) -> u64,
    ) {
        // Another byte each time, so that none is written by chance.
        let fill = (self.answers % 251) as u8;
        let mut out = vec![fill; room];
        self.answers += 1;
        let said = call(given, &mut out);
        let (written, behind) = out.split_at(bytes.len());
        if said != number || written != bytes || behind.iter().any(|&byte| byte != fill) {
            self.differs(
                given,
                &format!("{number:#X}, {bytes:02X?}, room for {room}, each {fill:02X}"),
                &format!("{said:#X}, {out:02X?}"),
            );
        }
    }

    /// Asked for a number alone.
    pub fn says(&mut self, given: &[u8], expected: u64, said: u64) {
        self.answers += 1;
        if expected < REFUSED {
            self.accepted += 1;
        } else {
            self.refused += 1;
        }
        if said != expected {
            self.differs(given, &format!("{expected:#X}"), &format!("{said:#X}"));
        }
    }

    /// Asked for a value, which is compared as it is shown.
    pub fn shows(&mut self, given: &[u8], expected: &str, said: &str) {
        self.answers += 1;
        if expected.starts_with("Err") {
            self.refused += 1;
        } else {
            self.accepted += 1;
        }
        if said != expected {
            self.differs(given, expected, said);
        }
    }

    /// Asked for a value, which is shown only where it is another one.
    pub fn agrees<T: PartialEq + fmt::Debug>(
        &mut self,
        given: &[u8],
        refused: bool,
        expected: T,
        said: T,
    ) {
        self.answers += 1;
        if refused {
            self.refused += 1;
        } else {
            self.accepted += 1;
        }
        if said != expected {
            self.differs(given, &format!("{expected:?}"), &format!("{said:?}"));
        }
    }

    /// What has to be answered: what the crate says. Where it is listed to say otherwise, what it says of the bytes that stand
    /// instead of the given ones; then it has to say otherwise.
    pub fn answer<T: PartialEq>(
        &mut self,
        given: &[u8],
        instead: Option<Vec<u8>>,
        crates: impl Fn(&[u8]) -> T,
    ) -> T {
        let own = crates(given);
        let Some(other) = instead else {
            return own;
        };
        let answer = crates(&other);
        self.excepted += 1;
        if own == answer {
            self.differs(given, "a listed difference", "the crate's own answer");
        }
        answer
    }

    pub fn differs(&mut self, given: &[u8], expected: &str, said: &str) {
        self.differ += 1;
        if self.differ <= SHOWN {
            let (name, given) = (self.name, format!("{given:02X?}"));
            let [given, expected, said] = [&given, expected, said].map(cut);
            println!("differs: {name} {given}\n  expected: {expected}\n  port:     {said}");
        }
    }

    /// Was there something to accept, and to refuse exactly where there is a refusal at all? Else the run tells nothing.
    fn tells(&self) -> bool {
        let tells = self.accepted > 0 && self.refuses == (self.refused > 0);
        if !tells {
            println!("{} was not asked for every kind of answer", self.name);
        }
        tells
    }
}

/// The start of a text that is too long to be read.
fn cut(text: &str) -> &str {
    text.get(..8000).unwrap_or(text)
}

/// Prints a line for each and one for all. Are all answers as they have to be?
pub fn said(what: &str, whose: &str, all: &[Held]) -> bool {
    for held in all {
        println!("{held}");
    }
    let answers: u64 = all.iter().map(|held| held.answers).sum();
    let differ: u64 = all.iter().map(|held| held.differ).sum();
    let excepted: u64 = all.iter().map(|held| held.excepted).sum();
    println!("{what}: {answers} answers, {differ} otherwise than {whose}");
    if excepted > 0 {
        println!("{what}: {excepted} inputs excepted, as docs/DIFFERENCES.md lists them");
    }
    differ == 0 && all.iter().all(Held::tells)
}

impl fmt::Display for Held {
    fn fmt(&self, f: &mut fmt::Formatter<'_>) -> fmt::Result {
        let Self {
            name,
            answers,
            accepted,
            refused,
            differ,
            excepted,
            ..
        } = self;
        write!(
            f,
            "  {name:<20} {answers:>9} answers; inputs: {accepted} accepted"
        )?;
        write!(
            f,
            ", {refused} refused or none, {differ} answered otherwise"
        )?;
        if *excepted > 0 {
            write!(f, ", {excepted} excepted")?;
        }
        Ok(())
    }
}
