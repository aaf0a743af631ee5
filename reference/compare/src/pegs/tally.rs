//! How many lookups were held to the model.

use compare::library::NearestBins;

/// Placed bodies and lookups, and how many of each number were refused.
#[derive(Debug, Clone, Default)]
pub struct Tally {
    /// Generated bodies, and damaged copies of them.
    pub bodies: u64,
    pub damaged: u64,
    pub lookups: u64,
    /// Answers of one bin, of several, and of none.
    one: u64,
    several: u64,
    none: u64,
    refused: [u64; NUMBERS.len()],
}

const NUMBERS: [u32; 11] = [11, 12, 13, 14, 15, 21, 22, 23, 24, 65, 66];

impl Tally {
    /// One more answer, by its number and its bins.
    pub fn answered(&mut self, answer: NearestBins) {
        self.lookups += 1;
        match (NUMBERS.iter().position(|n| *n == answer.refusal), answer.bins) {
            (Some(k), _) => self.refused[k] += 1,
            (None, 0) => self.none += 1,
            (None, 1) => self.one += 1,
            (None, _) => self.several += 1,
        }
    }

    pub fn said(&self) -> String {
        let Tally { bodies, damaged, lookups, one, several, none, refused } = self;
        let refused: Vec<String> = NUMBERS.iter().zip(refused).map(|(number, count)| format!("{count} with {number}")).collect();
        format!(
            "{bodies} placed bodies and {damaged} damaged ones: {lookups} lookups, {one} gave one bin, {several} several, {none} none, \
             refused {}",
            refused.join(", ")
        )
    }
}
