//! What has been compared so far.

use crate::assembling;
use crate::pegs;
use crate::plans;
use crate::reports;
use crate::stitching::Held;
use driver::sheet::Sheet;
use std::io::IsTerminal;
use std::time::{Duration, Instant};

/// What was compared of one body.
#[derive(Debug)]
pub struct Compared {
    pub stitched: Held,
    pub assembled: assembling::Tally,
    pub refusals: u64,
}

#[derive(Default)]
pub struct Tally {
    bodies: u64,
    rows: u64,
    refusals: u64,
    pub steps: u64,
    pub keys: u64,
    triangles: usize,
    /// Bodies stitched with their own sag, those of them that split, and the splits.
    stitched: u64,
    split: u64,
    splits: u64,
    /// Bodies outside document 01's condition, stitched as its model has it, and their splits.
    modelled: u64,
    ordered: u64,
    /// Bodies with a sag that were only copied: too open, and outside the condition and too open for the model.
    open: u64,
    outside: u64,
    pub assembled: assembling::Tally,
    /// Bodies made by hand.
    pub worst: u64,
    pub plans: plans::Tally,
    pub pegs: pegs::Tally,
    pub reports: reports::Tally,
    shown: Option<Instant>,
}

impl Tally {
    pub fn add(&mut self, sheet: &Sheet, compared: Compared) {
        self.bodies += 1;
        self.rows += sheet.rows.len() as u64;
        self.refusals += compared.refusals;
        self.assembled.add(&compared.assembled);
        self.triangles = self.triangles.max(sheet.indices() / 3);
        match compared.stitched {
            Held::NoSag => {}
            Held::TooOpen => self.open += 1,
            Held::Outside => self.outside += 1,
            Held::Modelled(splits) => {
                self.modelled += 1;
                self.ordered += splits as u64;
            }
            Held::Stitched(splits) => {
                self.stitched += 1;
                self.split += (splits > 0) as u64;
                self.splits += splits as u64;
            }
        }
    }

    /// One line on a terminal, written over and over; elsewhere one a minute.
    pub fn show(&mut self, kind: &str, seed: u64) {
        let terminal = std::io::stderr().is_terminal();
        let pause = if terminal { Duration::from_millis(200) } else { Duration::from_secs(60) };
        let shown = *self.shown.get_or_insert_with(Instant::now);
        if shown.elapsed() > pause {
            self.shown = Some(Instant::now());
            let (start, end) = if terminal { ("\r\x1b[K", "") } else { ("", "\n") };
            let Tally { bodies, refusals, plans, pegs, reports, .. } = self;
            let (plans, lookups, reports) = (plans.plans, pegs.lookups, reports.reports);
            eprint!(
                "{start}compare: {bodies} bodies, {refusals} refusals, {plans} plans, {lookups} lookups, {reports} reports, \
                 now {kind} of seed {seed}{end}"
            );
        }
    }

    pub fn end_line() {
        if std::io::stderr().is_terminal() {
            eprint!("\r\x1b[K");
        }
    }

    /// All counts in one line.
    pub fn said(&self) -> String {
        let Tally {
            bodies, rows, refusals, steps, keys, triangles, stitched, split, splits, modelled, ordered, open, outside, worst, ..
        } = self;
        let assembled = self.assembled.said();
        let plans = if self.plans.read == 0 { String::new() } else { format!("; {}", self.plans.said()) };
        let pegs = if self.pegs.lookups == 0 { String::new() } else { format!("; {}", self.pegs.said()) };
        let reports = if self.reports.reports == 0 { String::new() } else { format!("; {}", self.reports.said()) };
        format!(
            "{worst} bodies made by hand, {bodies} of up to {triangles} triangles, {rows} rows; {stitched} stitched with their own sag, {split} of them split, \
             {splits} splits; {modelled} outside the condition stitched as the model has them, {ordered} splits ({outside} more too open for \
             the model, {open} too open for the Rust); {assembled}; {refusals} refusals, {steps} float steps, \
             {keys} keys{plans}{pegs}{reports}"
        )
    }
}
