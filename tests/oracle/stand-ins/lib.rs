// Stands in for the crate's lib.rs, which names modules that are not at hand
// (storage, sensor_event, transport). It is included, so it can have no inner
// attributes.

// The crate's feature `log` is no feature of ours, and its style is not ours to
// mend.
#[allow(unexpected_cfgs, clippy::all)]
pub mod app;

pub mod connection;
