//! The proved library linked beside the Rust, for the tools that hold one against the other or time both.

pub mod library;
