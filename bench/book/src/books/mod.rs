//! The contestants.
pub mod array;
pub mod map;
pub mod original;
pub mod ours;
pub mod plain;
