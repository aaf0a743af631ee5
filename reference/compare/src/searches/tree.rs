//! Loose points in blocks that lie close together, with a box around each block: what is too far from an edge is passed over block by
//! block. A plain port of the library's design, right but for one fault.

use super::edges::{Edge, Point};
use super::spans::{Bounds, NOTHING, Span, is_far};
use super::wrong::Wrong;

/// Points in a leaf, but for the last.
const LEAF: usize = 8;

/// What the square of a sag is raised by: more than all rounding, and little enough that what is tried is nearly what is found.
const RAISED: f64 = 1.000001;

/// The least sag that is squared, so that no square becomes 0.
const LEAST_SAG: f64 = 1e-100;

/// Leaves of eight points each in an order, and boxes: that of leaf i is node 2^top + i, and node k is the one around nodes 2k and 2k + 1.
pub struct Tree {
    order: Vec<usize>,
    boxes: Vec<Bounds>,
    top: u32,
    beyond: f64,
    wrong: Wrong,
}

/// A square of which the root is above the sag, or infinity.
fn beyond_of(sag: f64, wrong: Wrong) -> f64 {
    let least = sag.max(LEAST_SAG);
    let square = match wrong {
        Wrong::BeyondBelowSag => least * least / RAISED,
        Wrong::BeyondNotSquared => least,
        _ => RAISED * least * least,
    };
    let unchecked = matches!(wrong, Wrong::BeyondBelowSag | Wrong::BeyondNotSquared);
    if unchecked || square.sqrt() > sag { square } else { f64::INFINITY }
}

/// The box around some points.
fn bounds(order: &[usize], points: &[Point]) -> Bounds {
    let around = |axis: usize| {
        let one = |j: &usize| Span { low: points[*j][axis], high: points[*j][axis] };
        order.iter().map(one).fold(NOTHING, Span::hull)
    };
    [around(0), around(1), around(2)]
}

/// A block of up to so many points parted in the middle of its widest axis, and its halves again, down to the leaves.
fn part(order: &mut [usize], points: &[Point], size: usize) {
    if size == LEAF {
        return;
    }
    if order.len() > size / 2 {
        let widths = bounds(order, points).map(|span| span.high - span.low);
        let axis = (0..3).max_by(|a, b| widths[*a].total_cmp(&widths[*b])).unwrap_or(0);
        order.sort_by(|a, b| points[*a][axis].total_cmp(&points[*b][axis]));
    }
    let (low, high) = order.split_at_mut(order.len().min(size / 2));
    part(low, points, size / 2);
    part(high, points, size / 2);
}

impl Tree {
    pub fn of(points: &[Point], sag: f64, wrong: Wrong) -> Tree {
        let leaves = points.len().div_ceil(LEAF).next_power_of_two();
        let mut order: Vec<usize> = (0..points.len()).collect();
        part(&mut order, points, LEAF * leaves);
        if wrong == Wrong::PointCopied && points.len() > 1 {
            order[0] = order[1];
        }
        let mut boxes = vec![[NOTHING; 3]; leaves];
        boxes.extend((0..leaves).map(|leaf| {
            let own = &order[order.len().min(LEAF * leaf)..order.len().min(LEAF * (leaf + 1))];
            bounds(&own[..if wrong == Wrong::LastNotInBox { own.len().saturating_sub(1) } else { own.len() }], points)
        }));
        for k in (1..leaves).rev() {
            let second = if wrong == Wrong::BoxOfFirstHalf { 2 * k } else { 2 * k + 1 };
            boxes[k] = [0, 1, 2].map(|axis| boxes[2 * k][axis].hull(boxes[second][axis]));
        }
        Tree { order, boxes, top: leaves.ilog2(), beyond: beyond_of(sag, wrong), wrong }
    }

    /// The height of the next block, once all leaves before this one are done.
    fn raised(&self, leaf: usize, height: u32) -> u32 {
        (height..self.top).find(|h| (leaf >> h) % 2 == 1).unwrap_or(self.top)
    }

    /// How many leaves are done with a block that is far.
    fn passed(&self, height: u32) -> usize {
        match self.wrong {
            Wrong::BlockPassedOver => 2 << height,
            _ => 1 << height,
        }
    }

    /// The points of a leaf.
    fn leaf(&self, leaf: usize) -> &[usize] {
        let past = self.order.len().min(LEAF * (leaf + 1));
        let last = if self.wrong == Wrong::LastOfLeafLeftOut { past.saturating_sub(1) } else { past };
        &self.order[LEAF * leaf..last.max(LEAF * leaf)]
    }

    /// The points that are tried on an edge: those of leaves that are not passed over.
    pub fn tried(&self, edge: &Edge) -> Vec<usize> {
        let (mut leaf, mut height, mut tried) = (0, self.top, Vec::new());
        let end = if self.wrong == Wrong::LastLeafLeftOut { self.order.len().saturating_sub(LEAF) } else { self.order.len() };
        while LEAF * leaf < end {
            let node = ((1 << self.top) + leaf) >> height;
            if is_far(&self.boxes[node], edge, self.beyond, self.wrong) {
                leaf += self.passed(height);
                height = self.raised(leaf, height);
            } else if height > 0 {
                height -= 1;
            } else {
                tried.extend(self.leaf(leaf));
                leaf += 1;
                height = self.raised(leaf, height);
            }
        }
        tried
    }
}
