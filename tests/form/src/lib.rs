//! The form of the questions that crates/replay answers and of its answers:
//! README.md has it in words.

mod list;
mod said;

pub use list::{List, Row};
pub use said::{none, number, refused, refused_with, written, Said, BAD_LINE};

/// What lent bytes are before a call.
pub const FILL: u8 = 0xEE;

/// The most bytes that a question lends.
pub const LENT: usize = 2048;

/// As many pairs as a line can hold.
const PAIRS: usize = 1365;

/// The first byte of a sweep, in the place of a function.
const SWEEP: u8 = 0xFF;

/// The most bytes of a question that is swept.
const SWEPT: usize = 64;

#[derive(Clone, Debug, PartialEq)]
pub struct Question {
    pub function: u8,
    /// How many bytes are lent.
    pub room: u16,
    pub arguments: Vec<u8>,
}

/// Questions that differ in a few bytes of their arguments.
#[derive(Clone, Debug, PartialEq)]
pub struct Sweep {
    pub question: Question,
    /// The first argument that runs.
    pub place: u8,
    /// How many run: one to three.
    pub running: u8,
    /// What each takes in turn; none stand for all bytes.
    pub letters: Vec<u8>,
}

#[derive(Clone, Debug, PartialEq)]
pub enum Asked {
    One(Question),
    Many(Sweep),
}

impl Question {
    fn bytes(&self) -> Vec<u8> {
        let [low, high] = self.room.to_le_bytes();
        [&[self.function, low, high], &self.arguments[..]].concat()
    }

    fn read(bytes: &[u8]) -> Option<Self> {
        let &[function, low, high, ref arguments @ ..] = bytes else {
            return None;
        };
        Some(Self {
            function,
            room: u16::from_le_bytes([low, high]),
            arguments: arguments.to_vec(),
        })
    }

    /// The number and the lent bytes after the call.
    fn reply(&self, ask: impl Fn(&Question) -> Said) -> Vec<u8> {
        let room = usize::from(self.room);
        if room > LENT {
            return refused(BAD_LINE).reply(0);
        }
        ask(self).reply(room)
    }
}

impl Sweep {
    fn bytes(&self) -> Vec<u8> {
        let head = [SWEEP, self.place, self.running, self.letters.len() as u8];
        [&head, &self.letters[..], &self.question.bytes()].concat()
    }

    fn read(bytes: &[u8]) -> Option<Self> {
        let &[SWEEP, place, running, count, ref rest @ ..] = bytes else {
            return None;
        };
        let (letters, question) = rest.split_at_checked(count.into())?;
        let swept = Self {
            question: Question::read(question)?,
            place,
            running,
            letters: letters.to_vec(),
        };
        let end = usize::from(place) + usize::from(running);
        let runs = matches!(running, 1..=3) && end <= swept.question.arguments.len();
        (runs && question.len() <= SWEPT).then_some(swept)
    }

    /// The questions, the last running byte changing fastest.
    pub fn questions(&self) -> impl Iterator<Item = Question> + '_ {
        let base = match self.letters.len() {
            0 => 256,
            count => count,
        };
        (0..base.pow(self.running.into())).map(move |turn| {
            let mut question = self.question.clone();
            let mut rest = turn;
            let begin = usize::from(self.place);
            for place in (begin..begin + usize::from(self.running)).rev() {
                let letter = self.letters.get(rest % base);
                question.arguments[place] = letter.copied().unwrap_or((rest % base) as u8);
                rest /= base;
            }
            question
        })
    }
}

impl Asked {
    /// What a line asks, which comes without its newline; none where it has
    /// another form.
    pub fn read(line: &[u8]) -> Option<Self> {
        let bytes = pairs(line)?;
        if bytes.first() == Some(&SWEEP) {
            return Sweep::read(&bytes).map(Self::Many);
        }
        Question::read(&bytes).map(Self::One)
    }

    pub fn line(&self) -> String {
        match self {
            Self::One(question) => hex(&question.bytes()),
            Self::Many(sweep) => hex(&sweep.bytes()),
        }
    }

    /// All that are asked.
    pub fn questions(&self) -> Vec<Question> {
        match self {
            Self::One(question) => vec![question.clone()],
            Self::Many(sweep) => sweep.questions().collect(),
        }
    }
}

/// The answer to a line, if a function says so.
pub fn answer(line: &[u8], ask: impl Fn(&Question) -> Said) -> String {
    let reply = match Asked::read(line) {
        Some(Asked::One(question)) => question.reply(ask),
        Some(Asked::Many(sweep)) => {
            let replies = sweep.questions().flat_map(|question| question.reply(&ask));
            number(hash(replies).into()).reply(0)
        }
        None => refused(BAD_LINE).reply(0),
    };
    hex(&reply)
}

/// FNV-1a of 32 bits. A byte is put in one-to-one, so a single one that differs
/// changes the hash for certain.
fn hash(bytes: impl Iterator<Item = u8>) -> u32 {
    bytes.fold(2_166_136_261, |hash, byte| {
        (hash ^ u32::from(byte)).wrapping_mul(16_777_619)
    })
}

/// Hex pairs in upper case, one space before each.
fn hex(bytes: &[u8]) -> String {
    bytes.iter().map(|byte| format!(" {byte:02X}")).collect()
}

/// Hex pairs of either case, one space before each, and nothing else.
fn pairs(line: &[u8]) -> Option<Vec<u8>> {
    if line.len() > 3 * PAIRS {
        return None;
    }
    line.chunks(3).map(pair).collect()
}

fn pair(text: &[u8]) -> Option<u8> {
    let &[b' ', high, low] = text else {
        return None;
    };
    let digit = |byte: u8| char::from(byte).to_digit(16);
    Some((digit(high)? * 16 + digit(low)?) as u8)
}

#[cfg(test)]
mod tests {
    use super::*;

    /// A function that writes its arguments in reverse, and refuses the empty
    /// ones.
    fn reversed(question: &Question) -> Said {
        if question.arguments.is_empty() {
            return refused_with(4, 0x12);
        }
        written(
            question
                .arguments
                .iter()
                .rev()
                .copied()
                .collect::<Vec<u8>>(),
        )
    }

    fn answered(line: &str) -> String {
        answer(line.as_bytes(), reversed)
    }

    const BAD: &str = " 0E 00 00 00 00 00 00 80";

    #[test]
    fn one_question() {
        let accepted = " 02 00 00 00 00 00 00 00 0B 0A EE EE";
        assert_eq!(answered(" 01 04 00 0A 0b"), accepted);
        // Refused, and too little room: no lent byte is changed.
        assert_eq!(answered(" 01 01 00"), " 04 12 00 00 00 00 00 80 EE");
        assert_eq!(answered(" 01 01 00 0A 0B"), " 0B 00 00 00 00 00 00 80 EE");
        assert_eq!(answered(" 01 01 08 0A 0B"), BAD);
    }

    #[test]
    fn other_lines() {
        for line in [
            "",
            " 01",
            " 01 00",
            "01 00 00",
            " 01 00 0",
            " 01 00 0G",
            " 01  00 00",
            " 01 00 00 ",
            " 01 00 +1",
            "# A heading",
        ] {
            assert_eq!(answered(line), BAD, "{line}");
        }
        let longest = " 00".repeat(PAIRS);
        assert_ne!(answered(&longest), BAD);
        assert_eq!(answered(&(longest + " 00")), BAD);
    }

    #[test]
    fn what_a_sweep_asks() {
        let asked = |line: &str| {
            let asked = Asked::read(line.as_bytes()).expect("a question");
            assert_eq!(asked.line(), line);
            asked.questions()
        };
        let arguments = |line: &str| {
            let questions = asked(line).into_iter();
            questions.map(|one| one.arguments).collect::<Vec<_>>()
        };
        assert_eq!(asked(" 01 00 00 0A").len(), 1);
        let all = arguments(" FF 01 01 00 01 00 00 0A 0B 0C");
        let expected = (0..=255).map(|byte| vec![0x0A, byte, 0x0C]);
        assert_eq!(all, expected.collect::<Vec<_>>());
        let letters = arguments(" FF 00 02 02 C0 13 01 00 00 0A 0B 0C");
        let expected = [[0xC0, 0xC0], [0xC0, 0x13], [0x13, 0xC0], [0x13, 0x13]];
        assert_eq!(letters, expected.map(|[a, b]| vec![a, b, 0x0C]));
        assert_eq!(asked(" FF 00 02 00 01 00 00 0A 0B 0C").len(), 1 << 16);
    }

    /// Not one to three bytes run, or not all of them are there.
    #[test]
    fn no_sweeps() {
        for line in [
            " FF 00 01",
            " FF 00 01 00",
            " FF 00 01 00 01 00 00",
            " FF 00 00 00 01 00 00 0A",
            " FF 00 04 00 01 00 00 0A 0B 0C 0D",
            " FF 02 01 00 01 00 00 0A 0B",
            " FF 01 02 00 01 00 00 0A 0B",
            " FF 00 01 09 01 00 00 0A",
        ] {
            assert_eq!(answered(line), BAD, "{line}");
        }
        let swept = format!(" FF 00 01 00{}", " 01".repeat(SWEPT));
        assert_ne!(answered(&swept), BAD);
        assert_eq!(answered(&(swept + " 01")), BAD);
    }

    #[test]
    fn one_differing_answer_changes_the_hash() {
        let line = " FF 01 01 00 01 04 00 0A 0B 0C";
        let right = answered(line);
        assert_eq!(right.len(), 24);
        for differs in 0..=255 {
            for byte in 0..3 {
                let wrong = answer(line.as_bytes(), |question| {
                    let mut said = reversed(question);
                    if question.arguments[1] == differs {
                        said.bytes[byte] ^= 0x40;
                    }
                    said
                });
                assert_ne!(wrong, right);
            }
        }
    }
}
