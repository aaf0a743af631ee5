//! What has been assembled so far.

use compare::library::{Assembled, Mesh};
use driver::closed::NEGATIVE_ZERO;

#[derive(Debug, Default, Clone, Copy)]
pub struct Tally {
    /// Bodies assembled by both; those of them with failures, with more than one part, and closed with an edge at all.
    bodies: u64,
    failed: u64,
    parted: u64,
    closed: u64,
    /// Meshes with a −0.0; meshes that are closed with open edges, and that are not closed with none open and none over.
    zeros: u64,
    joined: u64,
    touching: u64,
    /// Refusals 41 and 42.
    pub refusals: u64,
}

impl Tally {
    pub fn add(&mut self, more: &Tally) {
        self.bodies += more.bodies;
        self.failed += more.failed;
        self.parted += more.parted;
        self.closed += more.closed;
        self.zeros += more.zeros;
        self.joined += more.joined;
        self.touching += more.touching;
        self.refusals += more.refusals;
    }

    pub fn count(&mut self, made: &Assembled, mesh: &Mesh) {
        self.bodies += 1;
        self.failed += (made.failures > 0) as u64;
        self.parted += (made.parts > 1) as u64;
        self.closed += (made.closed == 1 && made.edges > 0) as u64;
        self.zeros += mesh.positions.iter().any(|v| v.to_bits() == NEGATIVE_ZERO) as u64;
        self.joined += (made.closed == 1 && made.opens > 0) as u64;
        self.touching += (made.closed == 0 && made.opens == 0 && made.overs == 0) as u64;
    }

    pub fn said(&self) -> String {
        let Tally { bodies, failed, parted, closed, zeros, joined, touching, refusals } = self;
        format!(
            "{bodies} assembled, {failed} of them with failures, {parted} with more than one part, {closed} closed, {zeros} with a −0.0, of which \
             {joined} closed beside open edges and {touching} not closed beside none open or over, {refusals} refused with 41 or 42"
        )
    }
}
