/// Stands in for the crate's request. It has no value, so no answer can rest
/// on it.
pub enum Request {}

/// Stands in for the address of a request. It has no value either.
pub enum RequestTargetAddress {}
