//! The port's collector, through C.

use collector_model::collector::{Answer, Hears, Status, Verdict, PART};
use ghjalvestru::sys::{self, Lent, CAPACITY, KNOWN, MISSING, PARTS, REFUSED};
use std::cell::Cell;

thread_local! {
    /// How many answers were heard, and what they left stored compared.
    static HEARD: Cell<u64> = const { Cell::new(0) };
}

/// How many answers were heard since this was last asked.
pub fn heard() -> u64 {
    HEARD.take()
}

#[derive(Clone, Copy, PartialEq)]
pub struct Port(pub Lent);

/// By a plain search: the lowest unheard index, or 64; 1 where all were heard or a part before it is not full.
fn found(marks: &[u8; PARTS]) -> [u8; KNOWN] {
    let lowest = marks.iter().position(|&mark| mark == 0).unwrap_or(PARTS);
    let ended = marks[..lowest]
        .iter()
        .any(|&mark| usize::from(mark) <= PART);
    [lowest as u8, u8::from(ended || lowest == PARTS)]
}

impl Port {
    pub fn known(&self) -> [u8; KNOWN] {
        [self.0.lowest, self.0.complete]
    }

    pub fn set(&mut self, known: [u8; KNOWN]) {
        [self.0.lowest, self.0.complete] = known;
    }

    pub fn answer(&mut self, index: u8, part: &[u8]) -> u64 {
        let mut known = self.known();
        let Lent { bytes, marks, .. } = &mut self.0;
        let number = sys::collector_answer(bytes, marks, &mut known, index, part);
        self.set(known);
        number
    }

    fn standing(&self) -> u64 {
        sys::collector_status(&self.0.bytes, &self.0.marks, &self.known())
    }

    fn list(&self, out: &mut [u8]) -> u64 {
        sys::collector_list(&self.0.bytes, &self.0.marks, &self.known(), out)
    }

    /// The list, its buffer too short by one first: that changes nothing.
    fn whole_list(&self, length: usize) -> Vec<u8> {
        let mut out = vec![0xA5; length + 3];
        if length > 0 {
            assert_eq!(self.list(&mut out[..length - 1]), REFUSED + 11);
            assert!(out.iter().all(|&byte| byte == 0xA5));
        }
        assert_eq!(self.list(&mut out), length as u64);
        assert_eq!(out[length..], [0xA5; 3]);
        out.truncate(length);
        out
    }
}

impl Hears for Port {
    fn fresh() -> Self {
        Self(Lent {
            bytes: [0; CAPACITY],
            marks: [0; PARTS],
            lowest: 0,
            complete: 0,
        })
    }

    /// By both entries that take an answer, the collector lent whole or as its arrays. What is stored is what a search finds.
    fn hear(&mut self, answer: &Answer) -> Verdict {
        let before = *self;
        let mut whole = self.0;
        let number = self.answer(answer.index, &answer.bytes);
        assert_eq!(
            sys::collector_take(&mut whole, answer.index, &answer.bytes),
            number
        );
        assert!(whole == self.0, "the two entries differ");
        assert_eq!(self.known(), found(&self.0.marks));
        HEARD.set(HEARD.get() + 1);
        if number == 0 {
            return Verdict::Accepted;
        }
        assert!(before == *self, "a refusal changed the collector");
        assert!(REFUSED < number && number < REFUSED + 256);
        Verdict::Refused((number - REFUSED) as u8)
    }

    /// By what is stored, which the number and the list agree with: so the model's status is held against it.
    fn status(&self) -> Status {
        let number = self.standing();
        let [index, complete] = self.known();
        if complete == 1 {
            assert!(number < MISSING);
            return Status::Complete(self.whole_list(number as usize));
        }
        assert_eq!((number, complete), (MISSING + u64::from(index), 0));
        let mut out = [0xA5; 4];
        assert_eq!(self.list(&mut out), REFUSED + 13 + 256 * u64::from(index));
        assert_eq!(out, [0xA5; 4]);
        Status::Missing(index)
    }
}
