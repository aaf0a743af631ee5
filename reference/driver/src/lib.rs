//! The bench sheet (document 01) read, checked, finished by the unchanged Rust, and printed; and sheets made up at random.

pub mod audit;
pub mod check;
pub mod closed;
pub mod command;
pub mod condition;
pub mod finish;
pub mod flat;
pub mod generate;
pub mod page;
pub mod print;
pub mod random;
pub mod sheet;
pub mod tail;

/// The source's own key and cell, cut out of it at build time.
pub mod source {
    include!(concat!(env!("OUT_DIR"), "/key.rs"));
}
