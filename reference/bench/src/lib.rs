//! The bodies that are timed and measured, two sides timed in turn, and numbers as tables show them.

pub mod bodies;
pub mod open_bodies;
pub mod race;
pub mod shown;
