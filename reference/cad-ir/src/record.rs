//! What the unchanged source asks of its neighbours while it counts cracks, written down as it happens.
//!
//! The source keeps its face ranges to itself, but under `CAD_TESS_CRACKS` it slices the index buffer by each of them and then
//! asks for that range's face. The two stubs concerned note both, and the pairs are the ranges, in order.

use std::cell::RefCell;

#[derive(Clone, Copy, Debug, PartialEq)]
pub enum Event {
    /// The index buffer was sliced from the first number to the second.
    Sliced(usize, usize),
    /// The face of this number was asked for.
    Asked(u32),
}

thread_local! {
    static EVENTS: RefCell<Vec<Event>> = const { RefCell::new(Vec::new()) };
}

pub fn note(event: Event) {
    EVENTS.with(|e| e.borrow_mut().push(event));
}

/// The ranges noted since the last call: face, first index, one past the last.
pub fn take_ranges() -> Vec<(u32, usize, usize)> {
    let events = EVENTS.with(|e| std::mem::take(&mut *e.borrow_mut()));
    events
        .windows(2)
        .filter_map(|pair| match pair {
            [Event::Sliced(lo, hi), Event::Asked(face)] => Some((*face, *lo, *hi)),
            _ => None,
        })
        .collect()
}
