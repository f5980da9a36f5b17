//! The root of the crate that the published modules are built in. `types` and `position/kelly` are stand-ins.
#![allow(dead_code, unused_imports, unstable_name_collisions)]

pub mod error;
pub mod orderbook;
pub mod position;
pub mod types;
