//! How the time grows with a body's size, and with its open edges.

use crate::{assemble, stitch, turn, whole};
use bench::bodies::{Body, rising, rising_open_edges};
use bench::race::Times;
use bench::shown::{grouped, time};
use driver::sheet::Sheet;

/// The exponent e for which time goes with size to the power e, from one point to another.
fn exponent(from: (f64, f64), to: (f64, f64)) -> f64 {
    (to.1 / from.1).ln() / (to.0 / from.0).ln()
}

const STAGES: [fn(&Sheet, usize) -> Times; 4] = [turn::times, stitch::times, assemble::times, whole::times];

/// Nanoseconds a triangle of each stage and of the whole, ours, and of the Rust's whole.
fn of_body(body: &Body) -> (f64, [f64; 5]) {
    let sheet = (body.make)();
    let triangles = (sheet.indices() / 3) as f64;
    let [a, b, c, all] = STAGES.map(|times| times(&sheet, body.rounds));
    (triangles, [a.ours, b.ours, c.ours, all.ours, all.rust].map(|us| us * 1000.0 / triangles))
}

/// Closed bodies: the time for each triangle, and the exponent over all sizes.
pub fn table() {
    println!("\ngrowth:\n\n| triangles | turn, ns a triangle | stitch | assemble | whole | the Rust's whole |\n|---|---|---|---|---|---|");
    let points: Vec<(f64, [f64; 5])> = rising().iter().map(of_body).collect();
    for (triangles, times) in &points {
        println!("| {} | {} |", grouped(*triangles as usize), times.map(time).join(" | "));
    }
    let ((n, first), (m, last)) = (points[0], points[points.len() - 1]);
    let exponents: [String; 5] = std::array::from_fn(|k| format!("{:.2}", exponent((n, n * first[k]), (m, m * last[k]))));
    println!("| exponent | {} |", exponents.join(" | "));
}

/// Bodies of one size with ever more open edges: the time of stitching, and the exponent from each to the next.
pub fn table_of_open_edges() {
    println!("\ngrowth-open:\n\n| open edges | triangles | Rust, µs | ours, µs | ratio | exponent, ours |\n|---|---|---|---|---|---|");
    let mut before: Option<(f64, f64)> = None;
    for (edges, body) in rising_open_edges() {
        let sheet = (body.make)();
        let Times { rust, ours } = stitch::times(&sheet, body.rounds);
        let now = (edges as f64, ours);
        let grown = before.map_or("—".to_string(), |from| format!("{:.2}", exponent(from, now)));
        let triangles = grouped(sheet.indices() / 3);
        println!("| {} | {triangles} | {} | {} | {:.2} | {grown} |", grouped(edges), time(rust), time(ours), ours / rust);
        before = Some(now);
    }
}
