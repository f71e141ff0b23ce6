//! How questions are read, and answers written and hashed.

use crate::collector::{Answer, Hears, Status, Verdict};

/// FNV-1a of 32 bits: its offset basis.
pub const OFFSET: u32 = 2_166_136_261;

pub fn hash(bytes: &[u8], before: u32) -> u32 {
    bytes.iter().fold(before, |hash, &byte| {
        (hash ^ u32::from(byte)).wrapping_mul(16_777_619)
    })
}

/// A word, then hex pairs in upper case, one space before each.
pub fn write(word: &str, data: &[u8]) -> String {
    let pairs = data.iter().map(|byte| format!(" {byte:02X}"));
    word.to_string() + &pairs.collect::<String>()
}

pub fn read(line: &[u8]) -> Option<(&str, Vec<u8>)> {
    let mut parts = std::str::from_utf8(line).ok()?.split(' ');
    let word = parts.next()?;
    let data = parts.map(pair).collect::<Option<Vec<u8>>>()?;
    Some((word, data))
}

/// By digits, since `from_str_radix` would take a sign too.
fn pair(text: &str) -> Option<u8> {
    let &[high, low] = text.as_bytes() else {
        return None;
    };
    let digit = |byte: u8| char::from(byte).to_digit(16);
    Some((digit(high)? * 16 + digit(low)?) as u8)
}

/// What a fresh collector says of a history.
pub struct Told {
    /// For each answer what became of it and how it left the collector; at the
    /// end the list or the lowest unheard index.
    pub text: String,
    /// How the last answer left the collector.
    pub status: String,
}

pub fn told<C: Hears>(history: &[Answer]) -> Told {
    let mut collector = C::fresh();
    let mut text = String::new();
    for answer in history {
        match collector.hear(answer) {
            Verdict::Accepted => text += "ok",
            Verdict::Refused(number) => text += &format!("refused {number}"),
        }
        text += &format!(" {}, ", status(&collector.status()));
    }
    let end = collector.status();
    let status = status(&end);
    text += &match end {
        Status::Complete(list) => write("list", &list),
        Status::Missing(_) => status.clone(),
    };
    Told { text, status }
}

fn status(status: &Status) -> String {
    match status {
        Status::Complete(list) => format!("complete {}", list.len()),
        Status::Missing(index) => format!("missing {index}"),
    }
}

/// The hash of the text, and the last status.
pub fn short<C: Hears>(history: &[Answer]) -> String {
    let told = told::<C>(history);
    format!("{} {}", hash(told.text.as_bytes(), OFFSET), told.status)
}

/// FNV-1a over lines, each with its newline.
pub fn hash_lines(lines: impl Iterator<Item = String>) -> String {
    let hashed = |before, line: String| hash(b"\n", hash(line.as_bytes(), before));
    lines.fold(OFFSET, hashed).to_string()
}
