//! Reads questions, a line each, and holds the recorded answers in the named
//! file against what the crate itself answers. Counts by their functions the
//! questions, those of sweeps too, where the two differ; fails where these are
//! not exactly the listed ones.

use oracle_core::{answer, crates_own, listed};
use std::collections::BTreeMap;
use std::io::{self, BufRead};
use std::process::ExitCode;

fn main() -> io::Result<ExitCode> {
    std::panic::set_hook(Box::new(|_| {}));

    let path = std::env::args().nth(1).expect("the file of the answers");
    let recorded = std::fs::read_to_string(path)?;
    let mut recorded = recorded.lines();
    let mut all: BTreeMap<&str, u64> = BTreeMap::new();
    let mut faults = 0;
    for line in io::stdin().lock().split(b'\n') {
        let line = line?;
        let recorded = recorded.next().unwrap_or_default();
        let differs = recorded != crates_own(&line);
        // A sweep has one answer for many: it has to be the one in which no
        // other differs.
        match listed(&line) {
            Some(counts) if differs != counts.is_empty() && recorded == answer(&line) => {
                for (name, count) in counts {
                    *all.entry(name).or_default() += count;
                }
            }
            _ => {
                faults += 1;
                eprintln!("differences:{}", String::from_utf8_lossy(&line));
            }
        }
    }
    let all: Vec<String> = all
        .iter()
        .map(|(name, count)| format!("{name} {count}"))
        .collect();
    println!("{}", all.join(", "));
    Ok(ExitCode::from(u8::from(faults > 0)))
}
