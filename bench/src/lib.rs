//! What the programs of the benchmark share.

pub mod called;
pub mod plain;
pub mod port;
pub mod requests;
pub mod timing;
pub mod traffic;
