//! How a list of questions is put together.

use crate::{Asked, Question, Sweep};

/// A function that questions name.
#[derive(Clone, Copy, Debug)]
pub struct Row {
    pub number: u8,
    pub name: &'static str,
    /// How many bytes its questions lend, by the number of arguments: two more
    /// than it writes.
    pub room: fn(usize) -> usize,
}

/// The questions, a line each.
pub struct List {
    rows: Vec<Row>,
    pub lines: Vec<String>,
}

impl List {
    pub fn new(rows: Vec<Row>) -> Self {
        let lines = Vec::new();
        Self { rows, lines }
    }

    /// A line that asks nothing and says what the next ones ask.
    pub fn heading(&mut self, text: &str) {
        self.lines.push(format!("# {text}"));
    }

    /// Any line.
    pub fn line(&mut self, text: &str) {
        self.lines.push(text.to_string());
    }

    /// Any text behind the function and the room.
    pub fn text(&mut self, name: &str, text: &str) {
        let question = Asked::One(self.question(name, &[])).line();
        self.lines.push(question + text);
    }

    fn question(&self, name: &str, arguments: &[u8]) -> Question {
        let row = self.rows.iter().find(|row| row.name == name);
        let row = row.unwrap_or_else(|| panic!("no function {name}"));
        Question {
            function: row.number,
            room: (row.room)(arguments.len()) as u16,
            arguments: arguments.to_vec(),
        }
    }

    pub fn one(&mut self, name: &str, arguments: &[u8]) {
        let question = self.question(name, arguments);
        self.lines.push(Asked::One(question).line());
    }

    /// With no room, one byte too few and just enough for a message of so many.
    pub fn scarce(&mut self, name: &str, arguments: &[u8], length: usize) {
        let mut question = self.question(name, arguments);
        for room in [0, length - 1, length] {
            question.room = room as u16;
            self.lines.push(Asked::One(question.clone()).line());
        }
    }

    /// Every value of one argument, while the others stay.
    pub fn sweep(&mut self, name: &str, arguments: &[u8], place: usize) {
        self.sweep_over(name, arguments, place, 1, &[]);
    }

    /// Every value of each argument, while the others stay.
    pub fn each_byte(&mut self, name: &str, arguments: &[u8]) {
        for place in 0..arguments.len() {
            self.sweep(name, arguments, place);
        }
    }

    /// All strings of so many letters, none of which stand for all bytes, from a
    /// place on.
    pub fn sweep_over(
        &mut self,
        name: &str,
        arguments: &[u8],
        place: usize,
        running: u8,
        letters: &[u8],
    ) {
        let sweep = Sweep {
            question: self.question(name, arguments),
            place: place as u8,
            running,
            letters: letters.to_vec(),
        };
        self.lines.push(Asked::Many(sweep).line());
    }
}
