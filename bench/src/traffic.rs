//! The responses of tests/traffic/facts.txt: what controllers sent.

const FACTS: &str = include_str!("../../tests/traffic/facts.txt");

/// The distinct good responses to a command, in order.
pub fn responses(command: &str) -> Vec<Vec<u8>> {
    let mut found: Vec<Vec<u8>> = FACTS
        .lines()
        .filter_map(|line| good(line, command))
        .collect();
    found.dedup();
    found
}

fn good(line: &str, command: &str) -> Option<Vec<u8>> {
    let data = line.strip_prefix(&format!("response {command} 00 "))?;
    let data = data.split(' ').next()?;
    let pairs = (0..data.len()).step_by(2);
    pairs
        .map(|i| u8::from_str_radix(&data[i..i + 2], 16).ok())
        .collect()
}
