//! How many plans were held to the model.

/// Texts and lists, and how many of each number were refused.
#[derive(Debug, Clone, Default)]
pub struct Tally {
    /// Generated plans, and those of them that were damaged.
    pub plans: u64,
    pub damaged: u64,
    /// Texts one byte away from a small plan.
    pub one_byte: u64,
    pub read: u64,
    pub written: u64,
    pub round_trips: u64,
    /// How many calls were refused with 61, 62, 63, 64 and 68.
    pub refused: [u64; 5],
}

const NUMBERS: [u32; 5] = [61, 62, 63, 64, 68];

impl Tally {
    /// One more answer, by its number.
    pub fn answered(&mut self, number: u32) {
        if let Some(k) = NUMBERS.iter().position(|n| *n == number) {
            self.refused[k] += 1;
        }
    }

    pub fn said(&self) -> String {
        let Tally { plans, damaged, one_byte, read, written, round_trips, refused: [a, b, c, d, e] } = self;
        format!(
            "{plans} plans, {damaged} of them damaged, and {one_byte} one byte away from a small one: {read} read and {written} written, \
             {a} refused with 61, {b} with 62, {c} with 63, {d} with 64, {e} with 68, {round_trips} written and read again"
        )
    }
}
