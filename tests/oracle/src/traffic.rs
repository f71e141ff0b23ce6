//! The requests of recorded traffic, as tests/traffic writes their questions.

use replay_form::List;

const QUESTIONS: &str = include_str!("../../traffic/questions.txt");

pub fn questions(list: &mut List) {
    list.heading("the requests of recorded traffic");
    for line in QUESTIONS.lines() {
        list.line(line);
    }
}
