//! Slices lent to a call out of larger ones: the words before and behind them must not change, nor may a slice that is only read.

use driver::flat::same_floats;
use std::cell::Cell;
use std::fmt::Debug;

/// Words before and behind a lent slice.
const FENCE: usize = 5;

/// Where a planted fault changes a slice: its first or last element, or the nearest word before or behind it that isn't lent.
#[derive(Debug, Clone, Copy, PartialEq)]
pub enum Place {
    Front,
    Back,
    Before,
    Behind,
}

thread_local! {
    static EXACT: Cell<bool> = const { Cell::new(false) };
    static EMPTY: Cell<usize> = const { Cell::new(0) };
}

/// From now on each slice is a block of memory by itself, so that a tool that watches memory sees every access beside it.
pub fn without_fences() {
    EXACT.set(true);
}

/// Words before and behind each slice from now on.
pub fn fence() -> usize {
    if EXACT.get() { 0 } else { FENCE }
}

/// A number that slices are made of.
pub trait Word: Copy + Debug + Default {
    /// A word of a fence, by its place.
    fn fence(place: usize) -> Self;
    fn changed(self) -> Self;
    fn same(a: &[Self], b: &[Self]) -> bool;
}

impl Word for u32 {
    fn fence(place: usize) -> u32 {
        0xFE2C_E000 + place as u32
    }

    fn changed(self) -> u32 {
        self ^ 1
    }

    fn same(a: &[u32], b: &[u32]) -> bool {
        a == b
    }
}

impl Word for u8 {
    fn fence(place: usize) -> u8 {
        0xE0 + place as u8
    }

    fn changed(self) -> u8 {
        self ^ 1
    }

    fn same(a: &[u8], b: &[u8]) -> bool {
        a == b
    }
}

impl Word for i64 {
    fn fence(place: usize) -> i64 {
        u64::fence(place) as i64
    }

    fn changed(self) -> i64 {
        self ^ 1
    }

    fn same(a: &[i64], b: &[i64]) -> bool {
        a == b
    }
}

impl Word for u64 {
    fn fence(place: usize) -> u64 {
        0xFE2C_E000_FE2C_E000 + place as u64
    }

    fn changed(self) -> u64 {
        self ^ 1
    }

    fn same(a: &[u64], b: &[u64]) -> bool {
        a == b
    }
}

impl Word for f32 {
    fn fence(place: usize) -> f32 {
        f32::from_bits(0x7FAC_E000 + place as u32)
    }

    fn changed(self) -> f32 {
        f32::from_bits(self.to_bits() ^ 1)
    }

    fn same(a: &[f32], b: &[f32]) -> bool {
        same_floats(a, b)
    }
}

/// A copy of a slice between two fences.
pub struct Fenced<'a, T> {
    name: &'static str,
    former: &'a [T],
    all: Vec<T>,
    fence: usize,
}

impl<'a, T: Word> Fenced<'a, T> {
    pub fn new(name: &'static str, former: &'a [T]) -> Fenced<'a, T> {
        let fence = fence();
        let mut all = Vec::with_capacity(former.len() + 2 * fence);
        all.extend((0..fence).map(T::fence));
        all.extend_from_slice(former);
        all.extend((fence..2 * fence).map(T::fence));
        Fenced { name, former, all, fence }
    }

    pub fn len(&self) -> usize {
        self.former.len()
    }

    /// Where the slice starts; an empty one by turns nowhere, at an odd address, and between its fences.
    pub fn start(&mut self) -> *mut T {
        if self.former.is_empty() {
            EMPTY.set(EMPTY.get() + 1);
            match EMPTY.get() % 3 {
                0 => return std::ptr::null_mut(),
                1 => return std::ptr::without_provenance_mut(1),
                _ => {}
            }
        }
        self.all[self.fence..].as_mut_ptr()
    }

    /// The slice itself, for what stands in a call's place.
    pub fn lent(&mut self) -> &mut [T] {
        &mut self.all[self.fence..self.fence + self.former.len()]
    }

    fn slice(&self) -> &[T] {
        &self.all[self.fence..self.fence + self.former.len()]
    }

    /// What a call left, or which fence it changed.
    pub fn left(&self) -> Result<Vec<T>, String> {
        let (before, behind) = (&self.all[..self.fence], &self.all[self.fence + self.former.len()..]);
        let fences = |from: usize| (from..from + self.fence).map(T::fence).collect::<Vec<T>>();
        if !T::same(before, &fences(0)) {
            return Err(format!("words before the {} are changed: {before:x?}", self.name));
        }
        if !T::same(behind, &fences(self.fence)) {
            return Err(format!("words behind the {} are changed: {behind:x?}", self.name));
        }
        Ok(self.slice().to_vec())
    }

    /// Whether a slice that is only read is as it was, with its fences.
    pub fn kept(&self) -> Result<(), String> {
        self.left()?;
        if T::same(self.slice(), self.former) { Ok(()) } else { Err(format!("{} are changed, and should only be read", self.name)) }
    }
}

/// What a planted fault may change.
pub trait Spoil {
    fn spoil(&mut self, place: Place);
    fn length(&self) -> usize;
    /// The lent element k becomes 0, or what another one is.
    fn set(&mut self, k: usize, as_other: Option<usize>);
    fn exchange(&mut self, k: usize, other: usize);
}

impl<T: Word> Spoil for Fenced<'_, T> {
    fn spoil(&mut self, place: Place) {
        let end = self.fence + self.former.len();
        let k = match place {
            Place::Front | Place::Back if self.former.is_empty() => return,
            Place::Front => self.fence,
            Place::Back => end - 1,
            Place::Before => self.fence.wrapping_sub(1),
            Place::Behind => end,
        };
        if let Some(word) = self.all.get_mut(k) {
            *word = word.changed();
        }
    }

    fn length(&self) -> usize {
        self.len()
    }

    fn set(&mut self, k: usize, as_other: Option<usize>) {
        self.all[self.fence + k] = as_other.map_or(T::default(), |other| self.all[self.fence + other]);
    }

    fn exchange(&mut self, k: usize, other: usize) {
        self.all.swap(self.fence + k, self.fence + other);
    }
}
