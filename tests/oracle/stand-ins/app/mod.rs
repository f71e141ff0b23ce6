//! Stands in for the crate's app/mod.rs: names the modules that are at hand.

pub mod auth;
pub mod get_channel_access;
pub mod get_channel_info;
