//! Suites by suite, against the model: the request, the answer, and the collector for a channel, whose numbers and lent bytes
//! are compared after each answer of random histories; and collectors whose channel or stored bytes are set by hand, which are
//! refused with 9 exactly where no calls make them.

use crate::held::{self, refused, Held};
use crate::inputs::{damaged, each_length, each_short, Random};
use collector_model::by_suite::{heard, request, suites, ChannelCollector as Model, CHANNELS};
use collector_model::collector::{Answer, Status, Verdict, PART};
use collector_model::history;
use ghjalvestru::app::auth::ChannelSuites;
use ghjalvestru::connection::Channel;
use ghjalvestru::sys::{self, Lent, CAPACITY, KNOWN, MISSING, PARTS, REFUSED};
use ghjalvestru::ChannelCollector;
use std::collections::HashSet;
use std::hint::black_box;

const NO_FORM: u64 = REFUSED + 9;
const INCOMPLETE: u64 = REFUSED + 13;

/// What a buffer holds before a call, and how many bytes: as many as the longest list.
const FILL: u8 = 0xA5;
const ROOM: usize = CAPACITY;

/// How many rounds make one random history, and one collector with forged values.
const HISTORY: u64 = 10;
const FORGED: u64 = 200;
/// Fewer histories would not bring up every verdict.
const FEWEST: u64 = 100;
/// How many forged values each random collector gets.
const EACH: usize = 64;
/// Of the long run: some 42 million answers.
const MILLION: u32 = 1 << 20;

/// How many differences are printed.
const SHOWN: u64 = 5;

/// A collector for a channel, as C has it.
#[derive(Clone, Copy, Debug, PartialEq)]
struct Port {
    channel: u8,
    from: u8,
    heard: Lent,
}

const FRESH: Lent = Lent {
    bytes: [0; CAPACITY],
    marks: [0; PARTS],
    lowest: 0,
    complete: 0,
};

impl Port {
    fn made_for(channel: u8) -> Self {
        let from = sys::channel_collector_from(channel);
        assert!(from <= 0x10, "{channel} is no channel");
        Self {
            channel,
            from: from as u8,
            heard: FRESH,
        }
    }

    fn known(&self) -> [u8; KNOWN] {
        [self.heard.lowest, self.heard.complete]
    }

    fn answer(&mut self, answer: &Answer) -> u64 {
        let Answer { index, bytes } = answer;
        let mut known = self.known();
        let Self {
            channel,
            from,
            heard,
        } = self;
        let Lent {
            bytes: list, marks, ..
        } = heard;
        let number =
            sys::channel_collector_answer(*channel, from, list, marks, &mut known, *index, bytes);
        [heard.lowest, heard.complete] = known;
        number
    }

    fn status(&self) -> u64 {
        let Lent { bytes, marks, .. } = &self.heard;
        sys::channel_collector_status(self.channel, self.from, bytes, marks, &self.known())
    }

    fn list(&self, out: &mut [u8]) -> u64 {
        let Lent { bytes, marks, .. } = &self.heard;
        sys::channel_collector_list(self.channel, self.from, bytes, marks, &self.known(), out)
    }

    fn suites(&self, out: &mut [u8]) -> u64 {
        let Lent { bytes, marks, .. } = &self.heard;
        sys::channel_collector_suites(self.channel, self.from, bytes, marks, &self.known(), out)
    }

    /// What the header says of each byte, by what the model accepted.
    fn of(model: &Model) -> Self {
        let mut heard = FRESH;
        for (_, part) in model.accepted() {
            let place = PART * usize::from(part.index);
            heard.bytes[place..place + part.bytes.len()].copy_from_slice(&part.bytes);
            heard.marks[usize::from(part.index)] = part.bytes.len() as u8 + 1;
        }
        let unheard = heard.marks.iter().position(|&mark| mark == 0);
        heard.lowest = unheard.unwrap_or(PARTS) as u8;
        heard.complete = matches!(model.status(), Status::Complete(_)).into();
        Self {
            channel: model.channel(),
            from: model.from().map_or(0, |number| number + 1),
            heard,
        }
    }
}

/// How C says a status.
fn standing(status: &Status) -> u64 {
    match status {
        Status::Complete(list) => list.len() as u64,
        Status::Missing(index) => MISSING + u64::from(*index),
    }
}

/// Random histories, and what became of their answers: by refusal, 0 where accepted.
#[derive(Default)]
struct Histories {
    histories: u64,
    answers: u64,
    complete: u64,
    verdicts: [u64; 16],
    differ: u64,
}

impl Histories {
    fn hear(&mut self, seed: &[u8; 4]) {
        let (channel, answers) = history::by_suite(seed);
        let mut model = Model::made_for(channel).expect("a channel");
        let mut port = Port::made_for(channel);
        let mut rust = ChannelCollector::new(Channel::new(channel).expect("a channel"));
        self.histories += 1;
        for (turn, answer) in answers.iter().enumerate() {
            let verdict = match model.hear(answer) {
                Verdict::Accepted => 0,
                Verdict::Refused(refusal) => refusal,
            };
            let number = match verdict {
                0 => 0,
                refusal => refused(refusal.into()),
            };
            let said = port.answer(answer);
            let by_rust = rust.answer(answer.index, &answer.bytes);
            let same = by_rust.map_or_else(|error| error.number(), |()| 0) == verdict;
            let expected = Port::of(&model);
            self.answers += 1;
            self.verdicts[usize::from(verdict)] += 1;
            if said != number || port != expected || !same || !told(&port, &model) {
                self.differs(seed, turn, number, said, port == expected);
                return;
            }
        }
        let ends = standing(&model.status()) < MISSING;
        self.complete += u64::from(ends);
        let from = rust.answers_from().map(u8::from);
        let list = match model.status() {
            Status::Complete(list) => Some(list),
            Status::Missing(_) => None,
        };
        if rust.list().ok() != list || from != model.from() || rust.channel().value() != channel {
            self.differs(seed, answers.len(), 0, 0, true);
        }
    }

    fn differs(&mut self, seed: &[u8; 4], turn: usize, number: u64, said: u64, kept: bool) {
        self.differ += 1;
        if self.differ <= SHOWN {
            println!(
                "differs: by suite, history {seed:02X?}, answer {turn}: {number:#X} expected, {said:#X}; lent bytes as expected: {kept}"
            );
        }
    }

    /// Did every verdict come up? Else the run tells less than it says.
    fn said(&self) -> bool {
        let Self {
            histories,
            answers,
            complete,
            verdicts,
            differ,
        } = self;
        println!("by suite: {histories} random histories, {complete} complete: {answers} answers, {differ} otherwise than the model's, all lent bytes too");
        let tally: Vec<String> = [0, 7, 1, 2, 6, 15, 12]
            .iter()
            .map(|&verdict| match verdict {
                0 => format!("{} accepted", verdicts[0]),
                _ => format!("{} refused {verdict}", verdicts[verdict]),
            })
            .collect();
        println!("by suite: {}", tally.join(", "));
        let all = [0, 1, 2, 6, 7, 12, 15]
            .iter()
            .all(|&verdict| verdicts[verdict] > 0);
        if !all || *complete == 0 {
            println!("by suite: not every verdict came up");
        }
        *differ == 0 && all && *complete > 0
    }
}

/// The status, the list and the suites, as the model says them; each is read, and changes nothing.
fn told(port: &Port, model: &Model) -> bool {
    let status = model.status();
    let (mut list, mut numbers) = ([FILL; ROOM], [FILL; ROOM]);
    let said = [
        port.status(),
        port.list(&mut list),
        port.suites(&mut numbers),
    ];
    match status {
        Status::Missing(index) => {
            let index = u64::from(index);
            let incomplete = INCOMPLETE + 256 * index;
            said == [MISSING + index, incomplete, incomplete]
                && list == [FILL; ROOM]
                && numbers == [FILL; ROOM]
        }
        Status::Complete(bytes) => {
            let suites = suites(&bytes);
            let holds = |out: &[u8; ROOM], written: &[u8]| {
                let (start, behind) = out.split_at(written.len());
                start == written && behind.iter().all(|&byte| byte == FILL)
            };
            let [length, count] = [&bytes, &suites].map(|written| written.len() as u64);
            said == [length, length, count]
                && holds(&list, &bytes)
                && holds(&numbers, &suites)
                && short(&bytes, |out| port.list(out))
                && short(&suites, |out| port.suites(out))
        }
    }
}

/// A buffer that is too short by one stays as it was.
fn short(written: &[u8], call: impl Fn(&mut [u8]) -> u64) -> bool {
    let Some(room) = written.len().checked_sub(1) else {
        return true;
    };
    let mut out = [FILL; ROOM];
    call(&mut out[..room]) == refused(11) && out == [FILL; ROOM]
}

/// Collectors with values that are set by hand.
#[derive(Default)]
struct Forged {
    collectors: u64,
    made: u64,
    none: u64,
    within: u64,
    differ: u64,
}

/// A collector that a history makes, an answer that it accepted, or a fresh one does, and every pair of a channel and `from` with
/// which some calls make the same parts.
struct Made {
    model: Model,
    port: Port,
    repeat: Answer,
    pairs: HashSet<(u8, u8)>,
}

/// Made for any channel, the answers from any channel: all that calls can make of these parts.
fn makes(parts: &[(u8, Answer)]) -> HashSet<(u8, u8)> {
    let mut pairs = HashSet::new();
    for made_for in CHANNELS {
        for number in CHANNELS {
            let mut model = Model::made_for(made_for).expect("a channel");
            let heard = |part: &Answer| Answer {
                index: part.index,
                bytes: [&[number], &part.bytes[..]].concat(),
            };
            if parts
                .iter()
                .all(|(_, part)| model.hear(&heard(part)) == Verdict::Accepted)
            {
                let port = Port::of(&model);
                pairs.insert((port.channel, port.from));
            }
        }
    }
    pairs
}

impl Forged {
    fn make(&mut self, channel: u8, answers: &[Answer]) -> Made {
        let mut model = Model::made_for(channel).expect("a channel");
        let first = if channel == 0xE { 0x02 } else { channel };
        let mut repeat = Answer {
            index: 0,
            bytes: vec![first],
        };
        for answer in answers {
            if model.hear(answer) == Verdict::Accepted {
                repeat = answer.clone();
            }
        }
        let (port, pairs) = (Port::of(&model), makes(model.accepted()));
        assert!(pairs.contains(&(port.channel, port.from)));
        self.collectors += 1;
        Made {
            model,
            port,
            repeat,
            pairs,
        }
    }

    /// With this channel and this `from`: refused at every entry exactly where no calls make it, whatever else is asked.
    fn channels(&mut self, made: &Made, channel: u8, from: u8) {
        let port = Port {
            channel,
            from,
            ..made.port
        };
        if made.pairs.contains(&(channel, from)) {
            self.made += 1;
            // The same part from the channel that it takes answers from, any one where it has taken none.
            let mut repeat = made.repeat.clone();
            repeat.bytes[0] = from.checked_sub(1).unwrap_or(0x0E);
            let mut after = port;
            let accepted = after.answer(&repeat) == 0 && after.from == repeat.bytes[0] + 1;
            let holds = accepted && port.status() == standing(&made.model.status());
            self.counts(holds, || {
                format!("channel {channel:#X}, from {from:#X} refused")
            });
            return;
        }
        self.no_form(port, &made.repeat);
    }

    /// Also where another refusal would come: each of those behind 9 in turn; and where there is no room.
    fn no_form(&mut self, port: Port, repeat: &Answer) {
        let answers = [
            (repeat.index, repeat.bytes.clone()),
            (64, repeat.bytes.clone()),
            (0, vec![]),
            (63, vec![0x0C; 18]),
            (0, vec![0x0C]),
            (0, vec![repeat.bytes[0] ^ 1; 17]),
        ];
        let turn = self.none as usize;
        self.none += 1;
        let (index, bytes) = answers[turn % answers.len()].clone();
        let answer = &Answer { index, bytes };
        let room = if turn % 7 == 0 { 0 } else { ROOM };
        let (mut after, mut read) = (port, port);
        let (mut list, mut suites) = ([FILL; ROOM], [FILL; ROOM]);
        let numbers = [
            after.answer(answer),
            read.status(),
            read.list(&mut list[..room]),
            read.suites(&mut suites[..room]),
        ];
        // The compiler takes it that what was lent to be read is as it was.
        black_box(&mut read);
        let unchanged =
            after == port && read == port && list == [FILL; ROOM] && suites == [FILL; ROOM];
        self.counts(unchanged && numbers == [NO_FORM; 4], || {
            let (channel, from) = (port.channel, port.from);
            format!("channel {channel:#X}, from {from:#X}: {numbers:X?}, unchanged: {unchanged}")
        });
    }

    /// With another stored pair than a search finds.
    fn stored(&mut self, made: &Made, known: [u8; KNOWN]) {
        if known == made.port.known() {
            return;
        }
        let mut port = made.port;
        [port.heard.lowest, port.heard.complete] = known;
        self.no_form(port, &made.repeat);
    }

    /// With a byte, a mark or a stored value changed: the collector within is tested as the one without a channel is.
    fn damaged(&mut self, made: &Made, random: &mut Random) {
        if made.port.channel == 0xE {
            return;
        }
        let mut port = made.port;
        match random.below(4) {
            0 => port.heard.bytes[random.below(CAPACITY)] ^= 1 << random.below(8),
            1 => port.heard.marks[random.below(PARTS)] = random.below(20) as u8,
            2 => port.heard.lowest = random.below(PARTS + 2) as u8,
            _ => port
                .heard
                .marks
                .swap(random.below(PARTS), random.below(PARTS)),
        }
        self.within += 1;
        let mut without = port.heard;
        let mut with = port;
        let (mut list, mut other) = ([FILL; ROOM], [FILL; ROOM]);
        let known = port.known();
        let Lent { bytes, marks, .. } = &port.heard;
        let same = [
            port.status() == sys::collector_status(bytes, marks, &known),
            port.list(&mut list) == sys::collector_list(bytes, marks, &known, &mut other),
            list == other,
            port.suites(&mut list) == sys::collector_suites(bytes, marks, &known, &mut other),
            list == other,
            with.answer(&made.repeat)
                == sys::collector_take(&mut without, made.repeat.index, &made.repeat.bytes[1..]),
            with.heard == without && with.from == port.from,
        ];
        self.counts(same == [true; 7], || format!("within: {same:?}"));
    }

    fn counts(&mut self, holds: bool, what: impl FnOnce() -> String) {
        if !holds {
            self.differ += 1;
            if self.differ <= SHOWN {
                println!("differs: by suite, set by hand: {}", what());
            }
        }
    }

    fn said(&self) -> bool {
        let Self {
            collectors,
            made,
            none,
            within,
            differ,
        } = self;
        println!("by suite: {collectors} collectors with channels set by hand: {none} that no calls make, refused with 9, and {made} that some do, accepted; {within} damaged within; {differ} otherwise");
        *differ == 0 && *made > 0 && *none > 0 && *within > 0
    }
}

/// A fresh one, parts with a gap, an ended list, the longest one; of a channel, and of Current.
fn each_channel(forged: &mut Forged, random: &mut Random) {
    for channel in [0x01, 0x0E] {
        for (length, kind) in [(0, None), (300, Some(4)), (19, Some(0)), (1024, Some(2))] {
            let answers: Vec<Answer> = kind.map_or(vec![], |kind| {
                let mut answers = history::honest(length, kind, 0);
                answers.iter_mut().for_each(|it| it.bytes.insert(0, 0xA1));
                answers
            });
            let made = forged.make(channel, &answers);
            for channel in 0..=u8::MAX {
                for from in 0..=u8::MAX {
                    forged.channels(&made, channel, from);
                }
            }
            for value in 0..=u8::MAX {
                let [lowest, complete] = made.port.known();
                forged.stored(&made, [value, complete]);
                forged.stored(&made, [lowest, value]);
                forged.damaged(&made, random);
            }
        }
    }
}

fn forge(seed: u64, rounds: u64) -> bool {
    let mut forged = Forged::default();
    let mut random = Random::new(seed);
    each_channel(&mut forged, &mut random);
    for _ in 0..rounds / FORGED {
        let (channel, answers) = history::by_suite(&random.array());
        let end = random.below(answers.len() + 1);
        let made = forged.make(channel, &answers[..end]);
        for _ in 0..EACH {
            let near = |value: u8, random: &mut Random| match random.below(4) {
                0 => value.wrapping_add(1),
                1 => value.wrapping_sub(1),
                2 => random.below(18) as u8,
                _ => value,
            };
            let (channel, from) = (
                near(made.port.channel, &mut random),
                near(made.port.from, &mut random),
            );
            forged.channels(&made, channel, from);
            forged.damaged(&made, &mut random);
        }
        forged.stored(&made, random.array());
    }
    forged.said()
}

/// The request, what a fresh collector takes answers from, and the answer.
fn messages(random: &mut Random, rounds: u64) -> bool {
    let mut requests = Held::new("by_suite_request", true);
    for channel in 0..=u8::MAX {
        for index in 0..=u8::MAX {
            let expected = request(channel, index)
                .map(Vec::from)
                .map_err(|refusal| refused(refusal.into()));
            requests.writes(&[channel, index], &expected, |_, out| {
                sys::by_suite_request(channel, index, out)
            });
        }
    }
    let mut froms = Held::new("channel_collector_from", true);
    for channel in 0..=u8::MAX {
        let expected = match Model::made_for(channel) {
            Ok(model) => Port::of(&model).from.into(),
            Err(refusal) => refused(refusal.into()),
        };
        froms.says(&[channel], expected, sys::channel_collector_from(channel));
    }
    let mut answers = Held::new("by_suite", true);
    let mut parsed = Held::new("Rust, by suite", true);
    let mut ask = |response: &[u8]| {
        let model = heard(response).map(|(number, list)| [&[number], list].concat());
        let expected = model.clone().map_err(|refusal| refused(refusal.into()));
        answers.writes(response, &expected, sys::by_suite);
        let said = ChannelSuites::parse(response)
            .map(|answer| [&[answer.channel.value()], &answer.suites[..]].concat())
            .map_err(|error| error.number());
        parsed.agrees(response, model.is_err(), model, said);
    };
    each_short(&mut ask);
    each_length(40, random, &mut ask);
    for _ in 0..rounds / 8 {
        let length = random.below(18);
        let response = random.bytes(length);
        ask(&response);
        damaged(&response, random).iter().for_each(|it| ask(it));
    }
    let all = [requests, froms, answers, parsed];
    held::said("by suite", "the model's", &all)
}

/// Prints some lines. Is all as the model has it?
pub fn all(seed: u64, rounds: u64, million: bool) -> bool {
    println!("by suite: seed={seed} rounds={rounds}");
    let mut random = Random::new(seed);
    let mut same = messages(&mut random, rounds);
    let mut histories = Histories::default();
    if million {
        for seed in 0..MILLION {
            histories.hear(&seed.to_be_bytes());
        }
    } else {
        for _ in 0..(rounds / HISTORY).max(FEWEST) {
            histories.hear(&random.array());
        }
    }
    same &= histories.said();
    same & forge(seed, rounds)
}
