//! What chandump does, in Rust written for speed: the input a block at a time, digits and texts from tables, which the crate's
//! own code fills at the start, the answers put together in one buffer. Its collector is its own, and never tested as a whole.

use oracle_core::app::auth::GetChannelAuthenticationCapabilities;
use oracle_core::app::get_channel_access::{ChannelAccessMode, ChannelPrivilegeLevel};
use oracle_core::app::get_channel_info::{
    ChannelMediumType, ChannelProtocolType, ChannelSessionSupport,
};
use oracle_core::connection::{Channel, IpmiCommand};
use std::ffi::{c_int, c_void};
use std::io::{self, Read, StdoutLock, Write};

extern "C" {
    fn memchr(bytes: *const c_void, byte: c_int, length: usize) -> *const c_void;
}

const LONGEST: usize = 256;
const BLOCK: usize = 1 << 16;
const PART: usize = 16;
const PARTS: usize = 64;
const CAPACITY: usize = PART * PARTS;

/// No text of a table is longer; the short ones are numbers and what stands between.
const LONG: usize = 80;
const SHORT: usize = 16;

/// More than an answer takes: the longest are four long texts, or a short one for each suite of a full list.
const ANSWER: usize = CAPACITY / 5 * SHORT;

/// A digit's value, 255 of what is none.
static VALUES: [u8; 256] = {
    let mut values = [255; 256];
    let mut n = 0;
    while n < 16 {
        values[b"0123456789ABCDEF"[n] as usize] = n as u8;
        values[b"0123456789abcdef"[n] as usize] = n as u8;
        n += 1;
    }
    values
};

/// All of the array is copied, and so many of its bytes count.
#[derive(Clone, Copy)]
struct Text<const N: usize> {
    bytes: [u8; N],
    length: usize,
}

fn text<const N: usize>(shown: &str) -> Text<N> {
    let mut bytes = [0; N];
    bytes[..shown.len()].copy_from_slice(shown.as_bytes());
    Text {
        bytes,
        length: shown.len(),
    }
}

type Table<const N: usize, const ROWS: usize> = Box<[Text<N>; ROWS]>;

fn table<const N: usize, const ROWS: usize>(shown: impl Fn(u8) -> String) -> Table<N, ROWS> {
    Box::new(std::array::from_fn(|n| text(&shown(n as u8))))
}

/// Texts by the bits that say which.
struct Texts {
    channel: Table<LONG, 16>,
    medium: Table<LONG, 128>,
    protocol: Table<LONG, 32>,
    sessions: Table<LONG, 256>,
    access: Table<LONG, 64>,
    limit: Table<LONG, 16>,
    auth: Table<SHORT, 256>,
    decimal: Table<SHORT, 256>,
    hex: Table<SHORT, 256>,
    refused: Table<SHORT, 16>,
    missing: Table<SHORT, PARTS>,
    block: Table<SHORT, PARTS>,
    bytes: Table<SHORT, { PART + 1 }>,
}

impl Texts {
    fn new() -> Self {
        let on = |disabled| if disabled { "off" } else { "on" };
        let best = |types: u8| {
            let response = [0, types & 0x7F, 0, 0, 0, 0, 0];
            let said = GetChannelAuthenticationCapabilities::parse_success_response(&response);
            said.ok()?.best_auth()
        };
        Self {
            channel: table(|n| Channel::new(n).map_or(String::new(), |c| format!("info {c}, "))),
            medium: table(|n| format!("{}, ", ChannelMediumType::from(n))),
            protocol: table(|n| format!("{}, ", ChannelProtocolType::from(n))),
            sessions: table(|n| {
                let support = ChannelSessionSupport::from(n >> 6);
                format!("{support}, {} active, vendor ", n & 0x3F)
            }),
            access: table(|n| {
                let mode = ChannelAccessMode::from(n & 7);
                let [alerting, message, user] = [0x20, 0x10, 8].map(|bit| on(n & bit != 0));
                format!("access {mode}, alerting {alerting}, per-message {message}, user-level {user}, limit ")
            }),
            limit: table(|n| format!("{}\n", ChannelPrivilegeLevel::from(n))),
            auth: table(|n| best(n).map_or("auth -\n".into(), |best| format!("auth {best:?}\n"))),
            decimal: table(|n| format!(" {n}")),
            hex: table(|n| format!(" {n:02X}")),
            refused: table(|n| format!("refused {n}\n")),
            missing: table(|n| format!("missing {n}\n")),
            block: table(|n| format!("block {n}, ")),
            bytes: table(|n| format!("{n} bytes\n")),
        }
    }
}

/// What waits to be written.
struct Answers {
    bytes: Box<[u8]>,
    length: usize,
    out: StdoutLock<'static>,
}

impl Answers {
    #[inline(always)]
    fn put<const N: usize>(&mut self, text: &Text<N>) {
        self.bytes[self.length..self.length + N].copy_from_slice(&text.bytes);
        self.length += text.length;
    }

    #[inline(always)]
    fn put_bytes(&mut self, bytes: &[u8]) {
        self.bytes[self.length..self.length + bytes.len()].copy_from_slice(bytes);
        self.length += bytes.len();
    }

    fn put_decimal(&mut self, n: u32) {
        let mut digits = [b'0'; 10];
        let (mut at, mut rest) = (9, n);
        digits[at] += (rest % 10) as u8;
        while rest >= 10 {
            rest /= 10;
            at -= 1;
            digits[at] += (rest % 10) as u8;
        }
        self.put_bytes(&digits[at..]);
    }

    fn write(&mut self) -> io::Result<()> {
        self.out.write_all(&self.bytes[..self.length])?;
        self.length = 0;
        Ok(())
    }
}

/// The parts that were heard, and between which lengths every list that explains them lies.
struct Collector {
    bytes: [u8; CAPACITY],
    lengths: [u8; PARTS],
    heard: u64,
    least: usize,
    most: usize,
}

impl Collector {
    const FRESH: Self = Self {
        bytes: [0; CAPACITY],
        lengths: [0; PARTS],
        heard: 0,
        least: 0,
        most: CAPACITY,
    };

    /// Bytes that are not heard are never looked at.
    fn clear(&mut self) {
        (self.heard, self.least, self.most) = (0, 0, CAPACITY);
    }

    /// 0, or the refusal's number.
    fn answer(&mut self, index: u8, part: &[u8]) -> usize {
        let i = usize::from(index);
        if i >= PARTS {
            return 7;
        }
        if part.len() > PART {
            return 2;
        }
        let (start, end) = (PART * i, PART * i + part.len());
        if self.heard >> i & 1 == 1 {
            let same =
                usize::from(self.lengths[i]) == part.len() && self.bytes[start..end] == *part;
            return if same { 0 } else { 12 };
        }
        let least = if part.is_empty() { 0 } else { end }.max(self.least);
        let most = if part.len() < PART { end } else { CAPACITY }.min(self.most);
        if most < least {
            return 12;
        }
        (self.least, self.most) = (least, most);
        self.heard |= 1 << i;
        self.lengths[i] = part.len() as u8;
        self.bytes[start..end].copy_from_slice(part);
        0
    }

    /// The list, or the lowest unheard index.
    fn list(&self) -> Result<&[u8], usize> {
        let lowest = self.heard.trailing_ones() as usize;
        if lowest == PARTS || lowest > 0 && usize::from(self.lengths[lowest - 1]) < PART {
            return Ok(&self.bytes[..self.least]);
        }
        Err(lowest)
    }
}

/// A line's bytes behind its word; none where they are no hex pairs.
#[inline(always)]
fn pairs<'a>(line: &[u8], data: &'a mut [u8; LONGEST / 3]) -> Option<&'a [u8]> {
    let n = line.len() / 3;
    if n == 0 || line.len() != 3 * n || line.len() > LONGEST {
        return None;
    }
    let (mut spaces, mut digits) = (0, 0);
    for (place, pair) in data.iter_mut().zip(line[3..].chunks_exact(3)) {
        let (high, low) = (VALUES[usize::from(pair[1])], VALUES[usize::from(pair[2])]);
        spaces |= pair[0] ^ b' ';
        digits |= high | low;
        *place = high << 4 | low;
    }
    (spaces == 0 && digits < 16).then_some(&data[..n - 1])
}

fn answer(line: &[u8], collector: &mut Collector, texts: &Texts, out: &mut Answers) {
    let mut data = [0; LONGEST / 3];
    let refused = |number: usize| &texts.refused[number];
    let Some(data) = pairs(line, &mut data) else {
        return out.put(refused(14));
    };
    match (&line[..3], data) {
        (b"inf", &[channel, medium, protocol, sessions, a, b, c, one, two, ..]) => {
            let channel = &texts.channel[usize::from(channel & 0xF)];
            if channel.length == 0 {
                return out.put(refused(1));
            }
            out.put(channel);
            out.put(&texts.medium[usize::from(medium & 0x7F)]);
            out.put(&texts.protocol[usize::from(protocol & 0x1F)]);
            out.put(&texts.sessions[usize::from(sessions)]);
            out.put_decimal(u32::from_le_bytes([a, b, c, 0]));
            out.put_bytes(b", aux");
            out.put(&texts.hex[usize::from(one)]);
            out.put(&texts.hex[usize::from(two)]);
            out.put_bytes(b"\n");
        }
        (b"acc", &[mode, limit, ..]) => {
            out.put(&texts.access[usize::from(mode & 0x3F)]);
            out.put(&texts.limit[usize::from(limit & 0xF)]);
        }
        (b"cap", &[_, types, ..]) if data.len() >= 7 + usize::from(types >> 7) => {
            out.put(&texts.auth[usize::from(types)]);
        }
        (b"inf" | b"acc" | b"cap", _) => out.put(refused(1)),
        (b"sui", &[index, ref part @ ..]) => match collector.answer(index, part) {
            0 => {
                out.put(&texts.block[usize::from(index)]);
                out.put(&texts.bytes[part.len()]);
            }
            number => out.put(refused(number)),
        },
        (b"end", []) => {
            match collector.list() {
                Ok(list) => {
                    out.put_bytes(b"suites");
                    for record in list.chunks_exact(5) {
                        if record[0] != 0xC0 || record[1] > 19 {
                            break;
                        }
                        out.put(&texts.decimal[usize::from(record[1])]);
                    }
                    out.put_bytes(b"\n");
                }
                Err(index) => out.put(&texts.missing[index]),
            }
            collector.clear();
        }
        _ => out.put(refused(14)),
    }
}

fn newline(bytes: &[u8]) -> Option<usize> {
    let found = unsafe { memchr(bytes.as_ptr().cast(), c_int::from(b'\n'), bytes.len()) };
    (!found.is_null()).then(|| found as usize - bytes.as_ptr() as usize)
}

fn main() -> io::Result<()> {
    let mut input = io::stdin().lock();
    let texts = Texts::new();
    let mut collector = Collector::FRESH;
    let mut out = Answers {
        bytes: vec![0; BLOCK + ANSWER].into(),
        length: 0,
        out: io::stdout().lock(),
    };
    out.put_bytes(b"chandump 1\n");
    // At the front what is held of a line; of one that is too long already, nothing.
    let mut block = vec![0; BLOCK];
    let (mut held, mut long) = (0, false);
    loop {
        let end = held + input.read(&mut block[held..])?;
        if end == held {
            break;
        }
        let (mut start, mut from) = (0, held);
        while let Some(length) = newline(&block[from..end]) {
            let stop = from + length;
            let line = if long { &[] } else { &block[start..stop] };
            answer(line, &mut collector, &texts, &mut out);
            if out.length > BLOCK {
                out.write()?;
            }
            (start, from, long) = (stop + 1, stop + 1, false);
        }
        long |= end - start > LONGEST;
        held = if long { 0 } else { end - start };
        block.copy_within(end - held..end, 0);
    }
    if long || held > 0 {
        let line = if long { &[] } else { &block[..held] };
        answer(line, &mut collector, &texts, &mut out);
    }
    out.write()
}
