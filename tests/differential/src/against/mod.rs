//! The C functions against the Rust crate, compiled unchanged: every number that C gives, every byte that was lent to it.

mod numbers;
mod readers;
mod requests;
mod steps;
mod texts;
mod types;

use crate::held;
use crate::inputs::Random;

/// Holds all functions; prints a line for each.
pub fn all(seed: u64, rounds: u64) -> bool {
    println!("readers: seed={seed} rounds={rounds}");
    let mut random = Random::new(seed);
    let mut all = Vec::new();
    readers::hold(&mut all, &mut random, rounds);
    all.push(steps::hold(&mut random, rounds));
    requests::hold(&mut all, &mut random, rounds);
    texts::hold(&mut all);
    numbers::hold(&mut all, &mut random, rounds);
    types::hold(&mut all, &mut random, rounds / 8);

    held::said("readers", "the crate's", &all)
}
