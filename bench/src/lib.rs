//! A plain Rust twin of `zoneplan`, written from the pages of docs/ alone.

pub mod answer;
pub mod cell;
pub mod damage;
pub mod plan;
pub mod plans;
pub mod random;
pub mod store;
pub mod zone;
