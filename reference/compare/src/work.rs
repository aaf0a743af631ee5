//! The work area lent to a call, and what the call should leave of it.

use crate::fences::{Place, fence};

/// A work area full of words that are not 0, each a function of its place, so that a changed one is found without a copy; and
/// words before and behind it that are not lent.
pub struct Work {
    salt: u64,
    all: Vec<u64>,
    fence: usize,
}

impl Work {
    fn word(salt: u64, place: usize) -> u64 {
        (place as u64).wrapping_mul(0x9e37_79b9_7f4a_7c15) ^ salt | 1
    }

    pub fn new(length: usize, salt: u64) -> Work {
        let fence = fence();
        Work { salt, all: (0..length + 2 * fence).map(|k| Work::word(salt, k)).collect(), fence }
    }

    /// The words that are lent.
    pub fn lent(&mut self) -> &mut [u64] {
        let end = self.all.len() - self.fence;
        &mut self.all[self.fence..end]
    }

    /// What is wrong with the words, of which the first so many should be 0 and the others, lent or not, as they were.
    pub fn wrong(&self, cleared: usize) -> Option<String> {
        let zeros = self.fence..self.fence + cleared;
        let want = |k: usize| if zeros.contains(&k) { 0 } else { Work::word(self.salt, k) };
        let k = (0..self.all.len()).find(|k| self.all[*k] != want(*k))?;
        let at = k as i64 - self.fence as i64;
        Some(format!("word {at} of the work area, the first {cleared} to be 0: {:016X}, not {:016X}", want(k), self.all[k]))
    }

    /// A word changed, if there is one: the first or last that is lent, or the nearest before or behind them that isn't.
    pub fn spoil(&mut self, place: Place) {
        let end = self.all.len() - self.fence;
        let k = match place {
            Place::Front | Place::Back if end == self.fence => return,
            Place::Front => self.fence,
            Place::Back => end - 1,
            Place::Before => self.fence.wrapping_sub(1),
            Place::Behind => end,
        };
        if let Some(word) = self.all.get_mut(k) {
            *word ^= 1 << 40;
        }
    }
}
