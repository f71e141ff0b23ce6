/// Stands in for the crate's completion codes. It has no value, so no answer
/// can rest on it.
pub enum CompletionErrorCode {}
