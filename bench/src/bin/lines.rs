//! Writes lines for chandump: `lines mixed MEGABYTES` or `lines suites MEGABYTES`, always the same ones.

use std::io::{self, BufWriter, Write};

/// Xorshift, 64 bits.
struct Random(u64);

impl Random {
    fn below(&mut self, n: u64) -> u64 {
        self.0 ^= self.0 << 13;
        self.0 ^= self.0 >> 7;
        self.0 ^= self.0 << 17;
        (self.0 >> 16) % n
    }
}

fn write_line(out: &mut impl Write, word: &str, data: &[u8]) -> io::Result<u64> {
    let mut line = String::from(word);
    for byte in data {
        line += &format!(" {byte:02X}");
    }
    line.push('\n');
    out.write_all(line.as_bytes())?;
    Ok(line.len() as u64)
}

/// A whole list, a part a line, now and then with a part lost or twice, then `end`.
fn suites(random: &mut Random, out: &mut impl Write) -> io::Result<u64> {
    let records = random.below(24);
    let list: Vec<u8> = (0..records)
        .flat_map(|_| [0xC0, random.below(21) as u8, 0x01, 0x41, 0x81])
        .collect();
    let mut written = 0;
    for index in 0..=list.len() / 16 {
        let part = &list[16 * index..list.len().min(16 * index + 16)];
        let data = [&[index as u8], part].concat();
        let times = match random.below(40) {
            0 => 0,
            1 => 2,
            _ => 1,
        };
        for _ in 0..times {
            written += write_line(out, "sui", &data)?;
        }
    }
    Ok(written + write_line(out, "end", &[])?)
}

fn mixed(random: &mut Random, out: &mut impl Write) -> io::Result<u64> {
    let (word, length) = match random.below(12) {
        0..=3 => ("inf", 9),
        4..=6 => ("acc", 2),
        7..=9 => ("cap", 8),
        10 => ("sui", 6),
        _ => return suites(random, out),
    };
    // Now and then too short, or no such word.
    let length = if random.below(50) == 0 {
        length - 1
    } else {
        length
    };
    let word = if random.below(100) == 0 { "xyz" } else { word };
    let mut data: Vec<u8> = (0..length).map(|_| random.below(256) as u8).collect();
    if word == "sui" {
        data[0] %= 66;
    } else if random.below(4) > 0 {
        data[0] %= 12;
    }
    write_line(out, word, &data)
}

fn main() -> io::Result<()> {
    let words: Vec<String> = std::env::args().collect();
    let usage = || io::Error::other("usage: lines mixed|suites MEGABYTES");
    let [_, kind, size] = &words[..] else {
        return Err(usage());
    };
    let size = size.parse::<u64>().map_err(|_| usage())? * 1_000_000;
    let mut random = Random(0x9E37_79B9_7F4A_7C15);
    let mut out = BufWriter::with_capacity(1 << 16, io::stdout().lock());
    let mut written = 0;
    while written < size {
        written += match kind.as_str() {
            "mixed" => mixed(&mut random, &mut out)?,
            "suites" => suites(&mut random, &mut out)?,
            _ => return Err(usage()),
        };
    }
    out.flush()
}
