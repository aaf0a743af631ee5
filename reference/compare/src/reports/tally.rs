//! How many reports were held to the model.

use compare::library::Reported;

/// Bodies and reports, and how many of each number were refused.
#[derive(Debug, Clone, Default)]
pub struct Tally {
    /// Generated bodies, damaged reports of them, and reports by hand.
    pub bodies: u64,
    pub damaged: u64,
    pub by_hand: u64,
    /// Bodies whose counts by the Rust's audit were held to the model's, those with any, and those whose whole printed them, all or twelve.
    pub audited: u64,
    pub wound: u64,
    pub printed: u64,
    pub printed_in_part: u64,
    /// Bodies laid in rows, and the rows.
    pub in_rows: u64,
    pub rows: u64,
    pub reports: u64,
    done: u64,
    refused: [u64; NUMBERS.len()],
}

const NUMBERS: [u32; 12] = [11, 12, 13, 14, 15, 21, 22, 23, 24, 31, 67, 69];

impl Tally {
    /// One more answer, by its number.
    pub fn answered(&mut self, answer: Reported) {
        self.reports += 1;
        match NUMBERS.iter().position(|n| *n == answer.refusal) {
            Some(k) => self.refused[k] += 1,
            None => self.done += 1,
        }
    }

    pub fn said(&self) -> String {
        let Tally { bodies, damaged, by_hand, audited, wound, printed, printed_in_part, in_rows, rows, reports, done, refused } = self;
        let refused: Vec<String> = NUMBERS.iter().zip(refused).map(|(number, count)| format!("{count} with {number}")).collect();
        format!(
            "{bodies} bodies to report, {damaged} damaged ones and {by_hand} by hand: {reports} reports, {done} done, refused {}; {in_rows} bodies in \
             {rows} rows; {audited} bodies counted by the Rust's winding audit, {wound} of them with faces wound against a neighbour, {printed} as \
             the whole Rust prints them, of which {printed_in_part} have more than it prints",
            refused.join(", ")
        )
    }
}
