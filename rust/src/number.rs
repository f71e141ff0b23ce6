//! What C's numbers say.

use crate::sys::{NONE, REFUSED};
use crate::Error;
use std::fmt;

/// As long as the longest text, and some more.
const TEXT: usize = 32;

/// What was accepted, or the refusal.
pub fn accepted(number: u64) -> Result<u64, Error> {
    if number < REFUSED {
        return Ok(number);
    }
    let [refusal, ..] = number.to_le_bytes();
    match Error::from_number(refusal, (number - REFUSED) >> 8) {
        Some(error) => Err(error),
        None => ruled_out(&number),
    }
}

/// A number below 256, or none.
pub fn some(number: u64) -> Option<u8> {
    match number {
        NONE => None,
        _ => u8::try_from(number).ok(),
    }
}

/// The bytes that a call writes, all of them.
pub fn record<const N: usize>(call: impl FnOnce(&mut [u8]) -> u64) -> Result<[u8; N], Error> {
    let mut out = [0; N];
    accepted(call(&mut out))?;
    Ok(out)
}

/// How many bytes a call wrote, or how many there are: a length of the machine's, as those of its slices are.
pub fn length(number: u64) -> Result<usize, Error> {
    accepted(number).map(|length| length as usize)
}

/// The bytes that a call writes, at most as many.
pub fn part<const N: usize>(call: impl FnOnce(&mut [u8]) -> u64) -> Result<Vec<u8>, Error> {
    let mut out = [0; N];
    let length = length(call(&mut out))?;
    Ok(certain(out.get(..length).ok_or(length)).to_vec())
}

/// Shows the text that a call writes, as wide as is asked for.
pub fn show(f: &mut fmt::Formatter<'_>, call: impl FnOnce(&mut [u8]) -> u64) -> fmt::Result {
    let text = part::<TEXT>(call).map_err(|_| fmt::Error)?;
    f.pad(std::str::from_utf8(&text).map_err(|_| fmt::Error)?)
}

/// An answer that the types of what was asked allow no refusal of.
pub fn certain<T, E: fmt::Debug>(answer: Result<T, E>) -> T {
    match answer {
        Ok(value) => value,
        Err(error) => ruled_out(&error),
    }
}

/// The only panic of this crate. No input comes here: the C functions are proved to give no such answer, so the archive would
/// have to be another one.
#[cold]
pub fn ruled_out(answer: &dyn fmt::Debug) -> ! {
    unreachable!("the archive does not keep its promise: {answer:?}")
}
