//! A stub of edge discretisation, and the capture of what the source prints.
//!
//! The two macros stand at the crate's root, so that the source's own `println!` and `eprintln!` there come here.

use cad_ir::brep::Solid;
use cad_ir::math::Vec3;
use std::cell::RefCell;

pub struct Chain {
    pub points: Vec<Vec3>,
}

pub fn discretise_all(_: &Solid, _: &crate::options::Resolved) -> Vec<Chain> {
    Vec::new()
}

thread_local! {
    static PRINTED: RefCell<Vec<String>> = const { RefCell::new(Vec::new()) };
}

pub fn keep(line: String) {
    PRINTED.with(|p| p.borrow_mut().push(line));
}

/// The lines printed since the last call.
pub fn take_printed() -> Vec<String> {
    PRINTED.with(|p| std::mem::take(&mut *p.borrow_mut()))
}

#[macro_export]
macro_rules! println {
    ($($words:tt)*) => { $crate::edge::keep(format!($($words)*)) };
}

#[macro_export]
macro_rules! eprintln {
    ($($words:tt)*) => { $crate::edge::keep(format!($($words)*)) };
}
