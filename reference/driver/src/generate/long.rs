//! Long edges that stitching takes the longest for: through a crowd of points that are all found on them and almost all dropped, and along
//! a bundle that slants through space, so that every edge passes the boxes of all its points.

use super::shapes::Point;
use super::ties::{body, triangles};
use crate::random::Random;
use crate::sheet::Sheet;

type Triangle = [Point; 3];

/// The side of the cube that a crowd stands in, and how far from it edges may be that its points split.
const CROWD: f64 = 0.0005;
pub const CROWD_SAG: f64 = 5.0;

/// A bundle's length and its thickness, both ways, and a sag that hardly a point is within.
const LENGTH: f64 = 1000.0;
const THICKNESS: f64 = 1.0;
pub const BUNDLE_SAG: f64 = 1e-5;

/// The direction of a bundle, and two across it.
const ALONG: Point = [0.6, 0.64, 0.48];
const ACROSS: [Point; 2] = [[0.8, -0.48, -0.36], [0.0, 0.6, -0.8]];

/// A point so far from the origin, in any direction.
fn away(r: &mut Random, far: f64) -> Point {
    loop {
        let p = [0; 3].map(|_| r.between(-1.0, 1.0));
        let length = p.iter().map(|v| v * v).sum::<f64>().sqrt();
        if length > 0.1 && length < 1.0 {
            return p.map(|v| far * v / length);
        }
    }
}

/// So many triangles with one corner each in a small cube at the origin and the others far away, and so many with an edge through the
/// origin, as far to either side: every corner in the cube splits every such edge near its middle.
pub fn crowd(r: &mut Random, points: usize, edges: usize, far: f64) -> Vec<Triangle> {
    let corner = |r: &mut Random| [0; 3].map(|_| CROWD * r.between(-0.5, 0.5));
    let mut all: Vec<Triangle> = (0..points).map(|_| [corner(r), away(r, far), away(r, far)]).collect();
    for _ in 0..edges {
        let end = away(r, far);
        all.push([end, end.map(|v| -v), away(r, far)]);
    }
    all
}

/// Triangles with their corners anywhere in a bundle of this thickness.
pub fn bundle(r: &mut Random, triangles: usize, thickness: f64) -> Vec<Triangle> {
    let corner = |r: &mut Random| {
        let (s, offs) = (LENGTH * r.unit(), [0; 2].map(|_| thickness * r.between(-0.5, 0.5)));
        [0, 1, 2].map(|k| s * ALONG[k] + offs[0] * ACROSS[0][k] + offs[1] * ACROSS[1][k])
    };
    (0..triangles).map(|_| [corner(r), corner(r), corner(r)]).collect()
}

/// The bundle that takes longest.
pub fn thin_bundle(r: &mut Random, triangles: usize) -> Vec<Triangle> {
    bundle(r, triangles, THICKNESS)
}

/// A crowd, with edges so long that one of its points is kept on each, or shorter ones on which some are; and now and then points elsewhere on
/// an edge, so that not all found on it are close.
pub fn crowds(r: &mut Random, size: usize) -> Sheet {
    let count = triangles(r, size);
    let (edges, far) = (1 + count / 6, *r.pick(&[1e7, 1e7, 1e6, 2e5, 2e4]));
    let others = if count > 8 && r.chance(50) { r.size(1, 3) } else { 0 };
    let mut all = crowd(r, count - edges - others, edges, far);
    for _ in 0..others {
        let (end, part) = (all[r.size(count - edges - others, count - others - 1)][0], *r.pick(&[0.25, -0.5, 1e-4, -2e-9]));
        all.push([end.map(|v| part * v), away(r, far), away(r, far)]);
    }
    body(r, all, CROWD_SAG)
}

/// A bundle as thin as some sags, so that points split edges here and there, or thicker.
pub fn bundles(r: &mut Random, size: usize) -> Sheet {
    let count = triangles(r, size);
    let (thickness, sag) = *r.pick(&[(THICKNESS, 0.05), (THICKNESS, 0.2), (0.05, 0.01), (20.0, 1.0), (THICKNESS, BUNDLE_SAG)]);
    let all = bundle(r, count, thickness);
    body(r, all, sag)
}
