//! The port, through C: its collector against the model, on the recorded questions and, with the word `million`, on a million
//! random histories, and with forged stored bytes; its suites by suite, with the collector for a channel, and its records with
//! tags against their models, and all else against the Rust crate, on `rounds=N` random turns a function from `seed=N`.

#[cfg(feature = "oracle")]
mod against;
mod by_suite;
mod forged;
#[cfg_attr(not(feature = "oracle"), allow(dead_code))]
mod held;
#[cfg_attr(not(feature = "oracle"), allow(dead_code))]
mod inputs;
mod port;
mod records;

use collector_model::{answer_by, million_by};
use port::Port;

const QUESTIONS: &str = include_str!("../../model/questions.txt");
const ANSWERS: &str = include_str!("../../model/answers.txt");
const MILLION: &str = include_str!("../../model/million.txt");

/// What the command line asks for.
struct Asked {
    million: bool,
    seed: u64,
    rounds: u64,
}

fn main() {
    let Some(asked) = asked() else {
        eprintln!("usage: [million] [seed=NUMBER] [rounds=NUMBER]");
        std::process::exit(2);
    };
    let mut same = recorded();
    if asked.million {
        same &= million();
    }
    same &= forged::all(asked.seed, asked.rounds);
    same &= by_suite::all(asked.seed, asked.rounds, asked.million);
    same &= records::all(asked.seed, asked.rounds);
    same &= readers(&asked);
    if !same {
        std::process::exit(1);
    }
}

fn asked() -> Option<Asked> {
    let mut asked = Asked {
        million: false,
        seed: 0x4768_6A61_6C76_6573,
        rounds: 300_000,
    };
    for word in std::env::args().skip(1) {
        match word.split_once('=') {
            None if word == "million" => asked.million = true,
            Some(("seed", number)) => asked.seed = number.parse().ok()?,
            Some(("rounds", number)) => asked.rounds = number.parse().ok()?,
            _ => return None,
        }
    }
    // Nothing but zeros would follow a zero.
    (asked.seed != 0).then_some(asked)
}

fn recorded() -> bool {
    let mut differ = 0;
    let mut count = 0;
    for (question, answer) in QUESTIONS.lines().zip(ANSWERS.lines()) {
        count += 1;
        let said = answer_by::<Port>(question.as_bytes());
        if said != answer {
            differ += 1;
            if differ <= 10 {
                println!("differs: {question}\n  model: {answer}\n  port:  {said}");
            }
        }
    }
    println!(
        "collector: {count} recorded questions, {differ} answered otherwise than by the model"
    );
    stored();
    differ == 0
}

fn million() -> bool {
    let hash = million_by::<Port>();
    let same = MILLION.split_whitespace().next() == Some(&hash);
    let whose = if same {
        "the model's"
    } else {
        "NOT the model's"
    };
    println!("collector: all pairs and 1,048,576 random histories: hash {hash}, {whose}");
    stored();
    same
}

/// The statuses are said by what is stored; another than a search finds would have ended the run.
fn stored() {
    let answers = port::heard();
    println!(
        "collector: what is stored after each of these {answers} answers is what a search finds"
    );
}

#[cfg(feature = "oracle")]
fn readers(asked: &Asked) -> bool {
    against::all(asked.seed, asked.rounds)
}

#[cfg(not(feature = "oracle"))]
fn readers(_: &Asked) -> bool {
    println!("readers: no folder with the sources of ipmi-rs-core (IPMI_RS_CORE_SRC): passed over");
    true
}
