/// Stands in for the crate's response. It has no value, so no answer can rest
/// on it.
pub enum Response {}
