//! The Rust of micro-blossom, a plain model of document 01, and a generator of sessions.

pub mod batch;
pub mod counts;
pub mod faults;
pub mod generate;
pub mod image;
pub mod judge;
pub mod model;
pub mod random;
pub mod replay;
pub mod rust;
pub mod words;
