//! The collector, by searching for the lists that explain what was accepted.

use std::collections::BTreeMap;

/// A list has at most so many bytes.
pub const CAPACITY: usize = 1024;

/// A controller answers an index with so many bytes at most.
pub const PART: usize = 16;

/// A controller answers no index above this one.
pub const LAST_INDEX: u8 = 63;

#[derive(Clone, Debug, PartialEq)]
pub struct Answer {
    pub index: u8,
    pub bytes: Vec<u8>,
}

/// What a controller with this list answers.
pub fn answer_of(list: &[u8], index: u8) -> Answer {
    let (start, end) = part(list.len(), index);
    Answer {
        index,
        bytes: list[start..end].to_vec(),
    }
}

/// The places of a list of `n` bytes that an index stands for: 16 i up to
/// 16 i + 16 or the end, none beyond it.
fn part(n: usize, index: u8) -> (usize, usize) {
    let start = PART * usize::from(index);
    (start.min(n), (start + PART).min(n))
}

#[derive(Clone, Copy, Debug, PartialEq)]
pub enum Verdict {
    Accepted,
    Refused(u8),
}

#[derive(Clone, Debug, PartialEq)]
pub enum Status {
    Complete(Vec<u8>),
    Missing(u8),
}

/// What is asked of a collector. The port is asked by the same questions.
pub trait Hears {
    fn fresh() -> Self;
    fn hear(&mut self, answer: &Answer) -> Verdict;
    fn status(&self) -> Status;
}

/// All that was accepted, by index, and every length that a list which explains
/// it can have. A length that explains no more never comes back, as what was
/// accepted stays; so the lengths need not be searched anew for each answer.
pub struct Collector {
    accepted: BTreeMap<u8, Vec<u8>>,
    lengths: Vec<usize>,
}

impl Hears for Collector {
    fn fresh() -> Self {
        Self {
            accepted: BTreeMap::new(),
            lengths: (0..=CAPACITY).collect(),
        }
    }

    fn hear(&mut self, answer: &Answer) -> Verdict {
        if answer.index > LAST_INDEX {
            return Verdict::Refused(7);
        }
        if answer.bytes.len() > PART {
            return Verdict::Refused(2);
        }

        // A list has one byte at each place, and two indexes have no place in
        // common: only an answer to the same index can have another byte at a
        // place of this one.
        let before = self.accepted.get(&answer.index);
        if before.is_some_and(|bytes| *bytes != answer.bytes) {
            return Verdict::Refused(12);
        }
        let mut lengths = self.lengths.clone();
        lengths.retain(|&n| {
            let (start, end) = part(n, answer.index);
            end - start == answer.bytes.len()
        });
        if lengths.is_empty() {
            return Verdict::Refused(12);
        }

        self.lengths = lengths;
        self.accepted.insert(answer.index, answer.bytes.clone());
        Verdict::Accepted
    }

    /// Complete means that every index up to min(63, n / 16) was heard, where n
    /// is the length of the controller's list. Of that list no more is known
    /// than that it explains what was accepted, so this has to hold for every
    /// list that does. That it holds for one is enough: the last index of that
    /// one was heard, with fewer than sixteen bytes or up to the place 1,024,
    /// and those before it were, so no list of another length explains it all.
    /// The assertion says so.
    fn status(&self) -> Status {
        let unheard = (0..=LAST_INDEX).find(|index| !self.accepted.contains_key(index));
        let complete = |&n: &usize| {
            let last = usize::from(LAST_INDEX).min(n / PART);
            unheard.is_none_or(|unheard| last < usize::from(unheard))
        };
        let Some(n) = self.lengths.iter().copied().find(complete) else {
            return Status::Missing(unheard.expect("all heard is complete for any length"));
        };
        assert_eq!(self.lengths, [n]);
        let list: Vec<u8> = self.accepted.values().flatten().copied().collect();
        assert_eq!(list.len(), n);
        Status::Complete(list)
    }
}

#[cfg(test)]
pub(crate) mod tests {
    use super::*;
    use crate::history;

    /// The sentence of the demand, word for word and slowly: is there a list of
    /// at most 1,024 bytes that explains all of these? A place that no answer
    /// speaks of can have any byte.
    pub(crate) fn explaining(answers: &[&Answer]) -> Vec<Vec<Option<u8>>> {
        (0..=CAPACITY)
            .filter_map(|n| laid_out(n, answers))
            .collect()
    }

    /// On a list of this length, if they fit there.
    fn laid_out(n: usize, answers: &[&Answer]) -> Option<Vec<Option<u8>>> {
        let places = |answer: &Answer| {
            let start = 16 * usize::from(answer.index);
            start.min(n)..(start + 16).min(n)
        };
        if answers
            .iter()
            .any(|answer| places(answer).len() != answer.bytes.len())
        {
            return None;
        }
        let mut list = vec![None; n];
        for answer in answers {
            for (place, &byte) in places(answer).zip(&answer.bytes) {
                if *list[place].get_or_insert(byte) != byte {
                    return None;
                }
            }
        }
        Some(list)
    }

    /// Whether every index up to min(63, n / 16) was heard, for this list.
    fn all_heard(n: usize, accepted: &[&Answer]) -> bool {
        (0..=(n / 16).min(63)).all(|index| {
            accepted
                .iter()
                .any(|answer| usize::from(answer.index) == index)
        })
    }

    fn compare(history: &[Answer]) {
        let mut collector = Collector::fresh();
        let mut accepted: Vec<&Answer> = Vec::new();
        for answer in history {
            let verdict = collector.hear(answer);
            let with = [&accepted[..], &[answer]].concat();
            let expected = if answer.index > 63 {
                Verdict::Refused(7)
            } else if answer.bytes.len() > 16 {
                Verdict::Refused(2)
            } else if explaining(&with).is_empty() {
                Verdict::Refused(12)
            } else {
                accepted = with;
                Verdict::Accepted
            };
            assert_eq!(verdict, expected);

            let lists = explaining(&accepted);
            match collector.status() {
                Status::Complete(list) => {
                    // One list is left, and it is known whole.
                    let known: Vec<Option<u8>> = list.iter().copied().map(Some).collect();
                    assert_eq!(lists, [known]);
                    assert!(all_heard(list.len(), &accepted));
                }
                Status::Missing(index) => {
                    assert!(lists.iter().all(|list| !all_heard(list.len(), &accepted)));
                    let heard = |index| accepted.iter().any(|answer| answer.index == index);
                    assert!(!heard(index) && (0..index).all(heard));
                }
            }
        }
    }

    #[test]
    fn the_search_says_the_same() {
        for seed in 0..250u32 {
            compare(&history::random(&seed.to_be_bytes()));
        }
        for kind in 0..history::KINDS {
            for length in [0, 1, 15, 16, 17, 32, 100, 1007, 1008, 1009, 1023, 1024] {
                compare(&history::honest(length, kind, 0));
            }
        }
    }

    #[test]
    fn examples() {
        let full = |index| answer_of(&[7; CAPACITY], index);
        let mut collector = Collector::fresh();
        assert_eq!(collector.status(), Status::Missing(0));
        // P11
        let empty = |index| answer_of(&[], index);
        assert_eq!(collector.hear(&empty(0)), Verdict::Accepted);
        assert_eq!(collector.status(), Status::Complete(vec![]));
        // P12
        let mut collector = Collector::fresh();
        assert_eq!(collector.hear(&full(0)), Verdict::Accepted);
        assert_eq!(collector.hear(&empty(2)), Verdict::Accepted);
        assert_eq!(collector.status(), Status::Missing(1));
        let last = answer_of(&[7; 19], 1);
        assert_eq!(collector.hear(&last), Verdict::Accepted);
        assert_eq!(collector.status(), Status::Complete(vec![7; 19]));
        // P13
        let mut collector = Collector::fresh();
        assert_eq!(collector.hear(&last), Verdict::Accepted);
        let more = answer_of(&[7; 33], 2);
        assert_eq!(collector.hear(&more), Verdict::Refused(12));
        // Sixteen bytes at index 63, and seventeen.
        let mut collector = Collector::fresh();
        assert_eq!(collector.hear(&full(63)), Verdict::Accepted);
        let long = Answer {
            index: 63,
            bytes: vec![7; 17],
        };
        assert_eq!(collector.hear(&long), Verdict::Refused(2));
    }
}
