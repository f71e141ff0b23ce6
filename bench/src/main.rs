//! The port and the crate on the same work, in one run: a table, a row a work. With the word `few`: each function called a
//! few times, for a counter of instructions, and how often.

use ghjalvestru_bench::called::{self, numbers, Reader};
use ghjalvestru_bench::plain::{self, Plain, PlainChannel, PART, RECORD};
use ghjalvestru_bench::port;
use ghjalvestru_bench::requests::{self, Writer, Writing, ASKED, WRITINGS};
use ghjalvestru_bench::timing::{compare, heading};
use ghjalvestru_bench::traffic::responses;
use oracle_core::app::auth::{
    ActivateSession, GetChannelAuthenticationCapabilities, GetChannelCipherSuites,
    GetSessionChallenge,
};
use oracle_core::app::get_channel_access::ChannelAccess;
use oracle_core::app::get_channel_info::ChannelInfo;
use oracle_core::connection::IpmiCommand;
use std::hint::black_box;

/// The largest output: a record for each of 204.
const ROOM: usize = 204 * RECORD;

/// A list of records, whole.
fn records(count: u16) -> Vec<u8> {
    (0..count)
        .flat_map(|n| [0xC0, (n % 20) as u8, 0x01, 0x41, 0x81])
        .collect()
}

/// A list of as many bytes as a collector holds.
fn full_list() -> Vec<u8> {
    (0..1024u32).map(|k| (k % 251) as u8 + 1).collect()
}

/// So many bytes at random, 256 times, of which those stay that the reader accepts: nothing that a processor can foresee.
fn any_bytes(length: usize, read: Reader) -> Vec<Vec<u8>> {
    let mut state = 0x9E37_79B9_7F4A_7C15_u64;
    let mut byte = || {
        state ^= state << 13;
        state ^= state >> 7;
        state ^= state << 17;
        (state >> 32) as u8
    };
    let made = std::iter::repeat_with(|| (0..length).map(|_| byte()).collect::<Vec<u8>>());
    let mut out = [0; 32];
    made.filter(|input| unsafe { read(input.as_ptr(), length, out.as_mut_ptr(), 32) } >> 63 == 0)
        .take(256)
        .collect()
}

/// A reader on all inputs, a call each.
fn over(inputs: &[Vec<u8>], read: Reader, out: &mut [u8]) {
    for input in inputs {
        let (input, out) = (black_box(input.as_slice()), black_box(&mut *out));
        black_box(unsafe { read(input.as_ptr(), input.len(), out.as_mut_ptr(), out.len()) });
    }
}

/// A function of the port, the crate's behind the same kind of call, the inputs, the crate's inlined, and the floor: a call
/// that copies the input.
struct Row {
    name: &'static str,
    port: Reader,
    called: Reader,
    inputs: Vec<Vec<u8>>,
    inlined: fn(&[Vec<u8>]),
    floor: Reader,
}

/// A strict reading step by step, from 0 to the end, as one reader: the records one behind the other, and their
/// bytes' number.
macro_rules! steps {
    ($name:ident, $step:path) => {
        unsafe extern "C" fn $name(
            list: *const u8,
            length: usize,
            out: *mut u8,
            room: usize,
        ) -> u64 {
            let (mut position, mut written) = (0, 0);
            loop {
                let place = unsafe { out.add(written) };
                let said = unsafe { $step(list, length, position, place, room - written) };
                if said != RECORD as u64 {
                    break;
                }
                let end = unsafe { place.add(RECORD - 8).cast::<u64>().read_unaligned() };
                position = u64::from_le(end) as usize;
                written += RECORD;
            }
            written as u64
        }
    };
}

steps!(port_steps, port::ghj_tagged_step);
steps!(plain_steps, called::plain_step);

/// The crate's reader in the loop itself.
macro_rules! inlined {
    ($parse:expr) => {
        |inputs| {
            for input in inputs {
                let _ = black_box($parse(black_box(input.as_slice())));
            }
        }
    };
}

fn rows() -> Vec<Row> {
    let parts = records(204).chunks_exact(PART).map(Vec::from).collect();
    vec![
        Row {
            name: "Get Channel Access, 41h",
            port: port::ghj_access,
            called: called::crate_access,
            inputs: responses("41"),
            inlined: inlined!(ChannelAccess::parse),
            floor: called::copying::<2>,
        },
        Row {
            name: "Get Channel Info, 42h",
            port: port::ghj_info,
            called: called::crate_info,
            inputs: responses("42"),
            inlined: inlined!(ChannelInfo::parse),
            floor: called::copying::<9>,
        },
        Row {
            name: "capabilities, 38h",
            port: port::ghj_capabilities,
            called: called::crate_capabilities,
            inputs: responses("38"),
            inlined: inlined!(GetChannelAuthenticationCapabilities::parse_success_response),
            floor: called::copying::<8>,
        },
        Row {
            name: "session challenge, 39h",
            port: port::ghj_challenge,
            called: called::crate_challenge,
            inputs: responses("39"),
            inlined: inlined!(GetSessionChallenge::parse_success_response),
            floor: called::copying::<20>,
        },
        Row {
            name: "activation, 3Ah",
            port: port::ghj_activation,
            called: called::crate_activation,
            inputs: responses("3a"),
            inlined: inlined!(ActivateSession::parse_success_response),
            floor: called::copying::<10>,
        },
        Row {
            name: "full part of a list, 54h",
            port: port::ghj_suites,
            called: called::crate_suites,
            inputs: parts,
            inlined: inlined!(GetChannelCipherSuites::parse_success_response),
            floor: called::copying::<{ PART }>,
        },
        Row {
            name: "last part, 5 bytes, 54h",
            port: port::ghj_suites,
            called: called::crate_suites,
            inputs: records(16).chunks_exact(5).map(Vec::from).collect(),
            inlined: inlined!(GetChannelCipherSuites::parse_success_response),
            floor: called::copying::<5>,
        },
        Row {
            name: "41h, any bytes",
            port: port::ghj_access,
            called: called::crate_access,
            inputs: any_bytes(2, port::ghj_access),
            inlined: inlined!(ChannelAccess::parse),
            floor: called::copying::<2>,
        },
        Row {
            name: "42h, any bytes",
            port: port::ghj_info,
            called: called::crate_info,
            inputs: any_bytes(9, port::ghj_info),
            inlined: inlined!(ChannelInfo::parse),
            floor: called::copying::<9>,
        },
        Row {
            name: "38h, any bytes",
            port: port::ghj_capabilities,
            called: called::crate_capabilities,
            inputs: any_bytes(8, port::ghj_capabilities),
            inlined: inlined!(GetChannelAuthenticationCapabilities::parse_success_response),
            floor: called::copying::<8>,
        },
        Row {
            name: "3Ah, any bytes",
            port: port::ghj_activation,
            called: called::crate_activation,
            // The crate refuses those with reserved bits, and would do less.
            inputs: any_bytes(10, called::crate_activation),
            inlined: inlined!(ActivateSession::parse_success_response),
            floor: called::copying::<10>,
        },
        Row {
            name: "list of 204 records",
            port: port::ghj_suite_numbers,
            called: called::crate_numbers,
            inputs: vec![records(204)],
            inlined: |inputs| {
                let mut out = [0; 256];
                for input in inputs {
                    black_box(numbers(black_box(input), black_box(&mut out)));
                }
            },
            floor: called::copying::<1020>,
        },
        Row {
            name: "strict list of 204 records",
            port: port::ghj_tagged_numbers,
            called: called::plain_numbers,
            inputs: vec![records(204)],
            inlined: |inputs| {
                let mut out = [0; 256];
                for input in inputs {
                    black_box(plain::strict_numbers(black_box(input), black_box(&mut out)));
                }
            },
            floor: called::copying::<1020>,
        },
        Row {
            name: "strict listing of 204 records",
            port: port::ghj_tagged_listing,
            called: called::plain_listing,
            inputs: vec![records(204)],
            inlined: |inputs| {
                let mut out = [0; ROOM];
                for input in inputs {
                    black_box(plain::strict_listing(black_box(input), black_box(&mut out)));
                }
            },
            floor: called::copying::<1020>,
        },
        Row {
            name: "strict steps of 204 records",
            port: port_steps,
            called: plain_steps,
            inputs: vec![records(204)],
            inlined: |inputs| {
                for record in plain::records(black_box(&inputs[0])) {
                    let _ = black_box(record);
                }
            },
            floor: called::copying::<1020>,
        },
    ]
}

/// Both write and return the same.
fn agree(row: &Row) {
    for input in &row.inputs {
        let (mut one, mut two) = ([0xA5; ROOM], [0xA5; ROOM]);
        let said = [(row.port, &mut one), (row.called, &mut two)].map(|(read, out)| unsafe {
            read(input.as_ptr(), input.len(), out.as_mut_ptr(), out.len())
        });
        assert!(
            said[0] == said[1] && one == two && said[0] >> 63 == 0,
            "{}",
            row.name
        );
    }
}

fn reader_row(row: &Row) {
    agree(row);
    let inputs = &row.inputs;
    assert!(inputs.iter().all(|input| input.len() == inputs[0].len()));
    let (mut one, mut two, mut three) = ([0u8; ROOM], [0u8; ROOM], [0u8; ROOM]);
    compare(
        row.name,
        inputs.len(),
        &mut [
            Some(&mut || over(inputs, row.port, &mut one)),
            Some(&mut || over(inputs, row.called, &mut two)),
            Some(&mut || (row.inlined)(inputs)),
            Some(&mut || over(inputs, row.floor, &mut three)),
        ],
    );
}

/// A writer a hundred times.
fn hundred(write: Writer, out: &mut [u8]) {
    for _ in 0..100 {
        black_box(write(black_box(&ASKED), black_box(&mut *out)));
    }
}

fn writer_row(row: &Writing) {
    let (mut one, mut two) = ([0xA5; 32], [0xA5; 32]);
    let said = [(row.port)(&ASKED, &mut one), (row.called)(&ASKED, &mut two)];
    assert!(
        said[0] == said[1] && one == two && said[0] >> 63 == 0,
        "{}",
        row.name
    );
    let mut three = [0; 32];
    let mut four = [0; 32];
    let request = vec![one.to_vec(); 100];
    compare(
        row.name,
        100,
        &mut [
            Some(&mut || hundred(row.port, &mut one)),
            Some(&mut || hundred(row.called, &mut two)),
            Some(&mut || hundred(row.inlined, &mut three)),
            Some(&mut || over(&request, row.floor, &mut four)),
        ],
    );
}

fn port_answer(c: &mut Plain, index: u8, part: &[u8]) -> u64 {
    let Plain {
        bytes,
        marks,
        known,
    } = c;
    unsafe { port::ghj_collector_answer(bytes, marks, known, index, part.as_ptr(), part.len()) }
}

/// The collector lent whole: by the step by value.
fn port_take(c: &mut Plain, index: u8, part: &[u8]) -> u64 {
    unsafe { port::ghj_collector_take(c, index, part.as_ptr(), part.len()) }
}

fn plain_answer(c: &mut Plain, index: u8, part: &[u8]) -> u64 {
    u64::from(c.answer(index, part))
}

#[inline(never)]
fn no_answer(c: &mut Plain, _: u8, _: &[u8]) -> u64 {
    u64::from(black_box(c).marks[0])
}

type Answer = fn(&mut Plain, u8, &[u8]) -> u64;

/// A list that is heard in order from a fresh collector: of 1,024 bytes, 64 answers and the fresh state.
fn heard(list: &[u8], hear: Answer) -> Plain {
    let mut collector = Plain::FRESH;
    for (i, part) in list.chunks(PART).enumerate() {
        assert_eq!(hear(&mut collector, i as u8, part), 0);
    }
    collector
}

/// The first half of its parts, which are full.
fn half_heard(list: &[u8]) -> Plain {
    heard(&list[..list.len() / 2], plain_answer)
}

fn new_answers(name: &str, list: &[u8], way: Answer) {
    let whole = heard(list, plain_answer);
    assert!(whole == heard(list, way));
    let mut place = Plain::FRESH;
    compare(
        name,
        list.len() / PART,
        &mut [
            Some(&mut || {
                black_box(heard(black_box(list), way));
            }),
            Some(&mut || {
                black_box(heard(black_box(list), plain_answer));
            }),
            None,
            Some(&mut || {
                for _ in 0..list.len() / PART {
                    place = *black_box(&whole);
                    black_box(&place);
                }
            }),
        ],
    );
}

fn port_by_suite(c: &mut PlainChannel, index: u8, response: &[u8]) -> u64 {
    let Plain {
        bytes,
        marks,
        known,
    } = &mut c.heard;
    let (start, length) = (response.as_ptr(), response.len());
    unsafe {
        port::ghj_channel_collector_answer(
            c.channel,
            &mut c.from,
            bytes,
            marks,
            known,
            index,
            start,
            length,
        )
    }
}

fn plain_by_suite(c: &mut PlainChannel, index: u8, response: &[u8]) -> u64 {
    u64::from(c.answer(index, response))
}

/// The collector within, which is given the list's bytes alone.
fn port_within(c: &mut PlainChannel, index: u8, response: &[u8]) -> u64 {
    port_answer(&mut c.heard, index, &response[1..])
}

#[inline(never)]
fn no_by_suite(c: &mut PlainChannel, _: u8, _: &[u8]) -> u64 {
    u64::from(black_box(c).heard.marks[0])
}

type BySuite = fn(&mut PlainChannel, u8, &[u8]) -> u64;

/// A row of answers by suite: what the collector is made for, and what stands beside the port.
struct Joining {
    name: &'static str,
    channel: u8,
    called: BySuite,
}

const JOININGS: [Joining; 4] = [
    Joining {
        name: "an answer by suite, channel 1",
        channel: 0x01,
        called: plain_by_suite,
    },
    Joining {
        name: "an answer by suite, Current",
        channel: 0x0E,
        called: plain_by_suite,
    },
    Joining {
        name: "the same, channel 1; the old one",
        channel: 0x01,
        called: port_within,
    },
    Joining {
        name: "the same, Current; the old one",
        channel: 0x0E,
        called: port_within,
    },
];

/// The parts of a list as channel 1 answers them.
fn answers(list: &[u8]) -> Vec<Vec<u8>> {
    list.chunks(PART)
        .map(|part| [&[0x01], part].concat())
        .collect()
}

fn joined(channel: u8, answers: &[Vec<u8>], hear: BySuite) -> PlainChannel {
    let mut collector = PlainChannel::made_for(channel);
    for (i, answer) in answers.iter().enumerate() {
        assert_eq!(hear(&mut collector, i as u8, answer), 0);
    }
    collector
}

fn joining_row(row: &Joining, list: &[u8]) {
    let answers = answers(list);
    let whole = joined(row.channel, &answers, plain_by_suite);
    assert!(whole == joined(row.channel, &answers, port_by_suite));
    let mut place = PlainChannel::made_for(row.channel);
    compare(
        row.name,
        answers.len(),
        &mut [
            Some(&mut || {
                black_box(joined(row.channel, black_box(&answers), port_by_suite));
            }),
            Some(&mut || {
                black_box(joined(row.channel, black_box(&answers), row.called));
            }),
            None,
            Some(&mut || {
                for _ in 0..answers.len() {
                    place = *black_box(&whole);
                    black_box(&place);
                }
            }),
        ],
    );
}

/// An answer to what `start` is, which is made anew for each.
fn one_answer(name: &str, start: &Plain, index: u8, part: &[u8]) {
    let answered = |way: Answer| {
        let mut collector = *black_box(start);
        black_box(way(black_box(&mut collector), index, black_box(part)));
    };
    compare(
        name,
        1,
        &mut [
            Some(&mut || answered(port_answer)),
            Some(&mut || answered(plain_answer)),
            None,
            Some(&mut || {
                black_box(*black_box(start));
            }),
        ],
    );
}

/// A status as C's number.
type Asking = fn(&Plain) -> u64;

fn port_status(c: &Plain) -> u64 {
    unsafe { port::ghj_collector_status(&c.bytes, &c.marks, &c.known) }
}

fn plain_status(c: &Plain) -> u64 {
    match c.tested_standing() {
        Some(Ok(length)) => length as u64,
        Some(Err(index)) => 1 << 61 | u64::from(index),
        None => 1 << 63 | 9,
    }
}

#[inline(never)]
fn no_status(c: &Plain) -> u64 {
    u64::from(black_box(c).marks[0])
}

const WHOLE: &str = "status of a whole list";
const HALF: &str = "status of a half-heard list";

fn status_row(name: &str, collector: &Plain) {
    assert_eq!(port_status(collector), plain_status(collector));
    let asked = |way: Asking| {
        black_box(way(black_box(collector)));
    };
    compare(
        name,
        1,
        &mut [
            Some(&mut || asked(port_status)),
            Some(&mut || asked(plain_status)),
            None,
            None,
        ],
    );
}

fn collector_rows() {
    let list = full_list();
    new_answers("a new answer, arrays lent", &list, port_answer);
    new_answers("a new answer, collector lent", &list, port_take);
    one_answer(
        "a copied fresh one, an answer",
        &Plain::FRESH,
        0,
        &list[..PART],
    );
    let whole = heard(&list, plain_answer);
    one_answer(
        "a copied whole one, a repeat",
        &whole,
        5,
        &list[5 * PART..6 * PART],
    );
    status_row(WHOLE, &whole);
    status_row(HALF, &half_heard(&list));
    for row in &JOININGS {
        joining_row(row, &list);
    }
}

/// So many passes over a row's inputs by one of its ways: the port, the crate, or a call that does nothing.
fn few(row: &Row, way: &str, passes: usize) {
    let mut out = [0; ROOM];
    let read = match way {
        "port" => row.port,
        "called" => row.called,
        _ => called::nothing,
    };
    for _ in 0..passes {
        over(&row.inputs, read, &mut out);
    }
}

/// The same of a request's writers, a hundred calls a pass.
fn few_writings(row: &Writing, way: &str, passes: usize) {
    let mut out = [0; 32];
    let write = match way {
        "port" => row.port,
        "called" => row.called,
        _ => requests::no_request,
    };
    for _ in 0..passes {
        hundred(write, &mut out);
    }
}

/// The same of the collector's answers.
fn few_answers(way: &str, passes: usize) {
    let list = full_list();
    let hear: Answer = match way {
        "port" => port_answer,
        "lent" => port_take,
        "called" => plain_answer,
        _ => no_answer,
    };
    for _ in 0..passes {
        black_box(heard(black_box(&list), hear));
    }
}

/// The same of answers by suite.
fn few_joinings(row: &Joining, way: &str, passes: usize) {
    let answers = answers(&full_list());
    let hear: BySuite = match way {
        "port" => port_by_suite,
        "called" => row.called,
        _ => no_by_suite,
    };
    for _ in 0..passes {
        black_box(joined(row.channel, black_box(&answers), hear));
    }
}

/// The same of a collector's status, a hundred calls a pass.
fn few_statuses(collector: &Plain, way: &str, passes: usize) {
    let ask: Asking = match way {
        "port" => port_status,
        "called" => plain_status,
        _ => no_status,
    };
    for _ in 0..100 * passes {
        black_box(ask(black_box(collector)));
    }
}

/// The words of a counter: none for a list of the rows, with how many calls a pass has; or a row, a way, passes.
fn counted(words: &[String]) {
    let rows = rows();
    if let [row, way, passes] = words {
        let passes = passes.parse().expect("passes");
        let writing = WRITINGS.iter().find(|w| w.name == row);
        if let Some(joining) = JOININGS.iter().find(|j| j.name == row) {
            return few_joinings(joining, way, passes);
        }
        match (rows.iter().find(|r| r.name == row), writing) {
            (Some(row), _) => few(row, way, passes),
            (None, Some(writing)) => few_writings(writing, way, passes),
            (None, None) if row == WHOLE => {
                few_statuses(&heard(&full_list(), plain_answer), way, passes)
            }
            (None, None) if row == HALF => few_statuses(&half_heard(&full_list()), way, passes),
            (None, None) => few_answers(way, passes),
        }
        return;
    }
    for row in &rows {
        println!("{}\t{}\tport", row.name, row.inputs.len());
    }
    for writing in &WRITINGS {
        println!("{}\t100\tport", writing.name);
    }
    println!("a new answer, arrays lent\t64\tport");
    println!("a new answer, collector lent\t64\tlent");
    println!("{WHOLE}\t100\tport\n{HALF}\t100\tport");
    for joining in &JOININGS {
        println!("{}\t{}\tport", joining.name, plain::PARTS);
    }
}

fn main() {
    let words: Vec<String> = std::env::args().skip(1).collect();
    if words.first().is_some_and(|word| word == "few") {
        return counted(&words[1..]);
    }
    heading();
    for row in rows() {
        reader_row(&row);
    }
    WRITINGS.iter().for_each(writer_row);
    collector_rows();
}
