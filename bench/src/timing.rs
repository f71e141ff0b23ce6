//! Rounds of several pieces of work in turn, so that what disturbs one disturbs all.

use std::time::Instant;

const ROUNDS: usize = 1001;
const ROUND_NS: f64 = 100_000.0;

pub type Work<'a> = &'a mut dyn FnMut();

fn once(work: &mut dyn FnMut(), times: u32) -> f64 {
    let start = Instant::now();
    for _ in 0..times {
        work();
    }
    start.elapsed().as_nanos() as f64 / f64::from(times)
}

pub fn heading() {
    println!(
        "{:32}{:>16}{:>16}{:>16}{:>16}{:>14}",
        "ns: minimum, median", "port", "crate, called", "inlined", "copying", "port / called"
    );
}

/// A row: of each work one of so many parts, the minimum and the median of the rounds; then the ratios of the first to the
/// second.
pub fn compare(name: &str, parts: usize, works: &mut [Option<Work>]) {
    let mut rounds = vec![Vec::with_capacity(ROUNDS); works.len()];
    let times: Vec<u32> = works
        .iter_mut()
        .flatten()
        .map(|work| (ROUND_NS / once(work, 10).max(1.0)).ceil() as u32)
        .collect();
    let most = times.into_iter().max().unwrap_or(1);
    for _ in 0..ROUNDS {
        for (work, round) in works.iter_mut().zip(&mut rounds) {
            if let Some(work) = work {
                round.push(once(work, most) / parts as f64);
            }
        }
    }
    print!("{name:32}");
    let said: Vec<Option<(f64, f64)>> = rounds.iter_mut().map(|round| summed(round)).collect();
    for one in &said {
        match one {
            Some((least, median)) => print!("{least:8.1}{median:8.1}"),
            None => print!("{:>16}", "-"),
        }
    }
    if let (Some(port), Some(called)) = (said[0], said[1]) {
        print!("{:7.2}{:7.2}", port.0 / called.0, port.1 / called.1);
    }
    println!();
}

fn summed(round: &mut [f64]) -> Option<(f64, f64)> {
    round.sort_by(f64::total_cmp);
    Some((*round.first()?, round[round.len() / 2]))
}
