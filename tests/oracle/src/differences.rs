//! Where our documents decide otherwise than the crate (docs/DIFFERENCES.md):
//! what the crate is asked in place of the question.

use crate::leaves::AUTH_TYPES;

/// An authentication type is read from the low nibble of its byte, where the
/// crate compares the whole byte. So where the low nibble names a type and the
/// high one is set, the crate is asked for the low one. Where it names none the
/// crate is asked for the byte, and refuses it whole.
pub fn auth_type(byte: u8) -> Option<u8> {
    let low = byte % 0x10;
    (low != byte && AUTH_TYPES.contains(&low)).then_some(low)
}

/// The same of an answer to Activate Session, which begins with that byte. A
/// shorter one is refused for its length.
pub fn activation(data: &[u8]) -> Option<Vec<u8>> {
    let (&first, rest) = data.split_first()?;
    let low = auth_type(first)?;
    (data.len() >= 10).then(|| [&[low], rest].concat())
}

/// The same of the arguments of a function.
pub fn instead(name: &str, data: &[u8]) -> Option<Vec<u8>> {
    match (name, data) {
        ("auth_type", &[byte]) => auth_type(byte).map(|low| vec![low]),
        ("ghj_activation", data) => activation(data),
        _ => None,
    }
}
