//! What chandump does, in plain Rust with the crate's own readers: to compare chandump's answers and its speed with.

use ghjalvestru_bench::plain::Plain;
use oracle_core::app::auth::{
    ChannelCipherSuites, CipherSuite, GetChannelAuthenticationCapabilities,
};
use oracle_core::app::get_channel_access::ChannelAccess;
use oracle_core::app::get_channel_info::ChannelInfo;
use oracle_core::connection::IpmiCommand;
use std::io::{self, BufRead, BufWriter, Write};

const LONGEST: usize = 256;

fn digit(byte: u8) -> Option<u8> {
    match byte {
        b'0'..=b'9' => Some(byte - b'0'),
        b'A'..=b'F' => Some(byte - b'A' + 10),
        b'a'..=b'f' => Some(byte - b'a' + 10),
        _ => None,
    }
}

/// A three-letter word, then hex pairs, one space before each.
fn read<'a>(line: &'a [u8], data: &'a mut [u8; LONGEST]) -> Option<(&'a [u8], &'a [u8])> {
    if line.len() > LONGEST || line.len() < 3 || line.len() % 3 != 0 {
        return None;
    }
    let (word, pairs) = line.split_at(3);
    for (place, pair) in data.iter_mut().zip(pairs.chunks(3)) {
        if pair[0] != b' ' {
            return None;
        }
        *place = 16 * digit(pair[1])? + digit(pair[2])?;
    }
    Some((word, &data[..pairs.len() / 3]))
}

fn on(disabled: bool) -> &'static str {
    if disabled {
        "off"
    } else {
        "on"
    }
}

fn end(collector: &Plain, out: &mut impl Write) -> io::Result<()> {
    match collector.standing() {
        Ok(n) => {
            write!(out, "suites")?;
            let suites = ChannelCipherSuites::parse_full_data(&collector.bytes[..n]);
            for id in suites.map(|suite: CipherSuite| suite.id()) {
                write!(out, " {id}")?;
            }
            writeln!(out)
        }
        Err(index) => writeln!(out, "missing {index}"),
    }
}

fn answer(line: &[u8], collector: &mut Plain, out: &mut impl Write) -> io::Result<()> {
    let mut data = [0; LONGEST];
    let Some((word, data)) = read(line, &mut data) else {
        return writeln!(out, "refused 14");
    };
    match (word, data) {
        (b"inf", _) => match ChannelInfo::parse(data) {
            Some(i) => writeln!(
                out,
                "info {}, {}, {}, {}, {} active, vendor {}, aux {:02X} {:02X}",
                i.channel,
                i.medium_type,
                i.protocol_type,
                i.session_support,
                i.active_sessions,
                i.vendor_id,
                i.aux_info.byte1,
                i.aux_info.byte2
            ),
            None => writeln!(out, "refused 1"),
        },
        (b"acc", _) => match ChannelAccess::parse(data) {
            Some(a) => writeln!(
                out,
                "access {}, alerting {}, per-message {}, user-level {}, limit {}",
                a.access_mode,
                on(a.alerting_disabled),
                on(a.per_msg_auth_disabled),
                on(a.user_level_auth_disabled),
                a.privilege_level_limit
            ),
            None => writeln!(out, "refused 1"),
        },
        (b"cap", _) => match GetChannelAuthenticationCapabilities::parse_success_response(data) {
            Ok(c) => match c.best_auth() {
                Some(best) => writeln!(out, "auth {best:?}"),
                None => writeln!(out, "auth -"),
            },
            Err(_) => writeln!(out, "refused 1"),
        },
        (b"sui", [index, part @ ..]) => match collector.answer(*index, part) {
            0 => writeln!(out, "block {index}, {} bytes", part.len()),
            number => writeln!(out, "refused {number}"),
        },
        (b"end", []) => {
            end(collector, out)?;
            *collector = Plain::FRESH;
            Ok(())
        }
        _ => writeln!(out, "refused 14"),
    }
}

fn main() -> io::Result<()> {
    let mut input = io::stdin().lock();
    let mut out = BufWriter::with_capacity(1 << 16, io::stdout().lock());
    writeln!(out, "chandump 1")?;
    let mut collector = Plain::FRESH;
    let mut line = Vec::new();
    loop {
        line.clear();
        if input.read_until(b'\n', &mut line)? == 0 {
            return out.flush();
        }
        if line.last() == Some(&b'\n') {
            line.pop();
        }
        answer(&line, &mut collector, &mut out)?;
    }
}
