//! The lookup of a peg's bins by the library alone, since the Rust has none.

use bench::race::{alone, timed};
use bench::shown::grouped;
use compare::library::{Lookup, PLACE, nearest_bins};
use driver::check::{MOST_ROWS, MOST_VERTICES};
use driver::random::Random;

/// Vertices of a row where there is one winner, three for each triangle, and of one of as many rows as there may be.
const ROW: usize = 66;
const ROW_OF_MOST: usize = MOST_VERTICES / MOST_ROWS;

/// Where the peg stands, four kilometres out, and the rows' place.
const PEG: [i64; 3] = [4_000_000_000, 4_000_000_000, 0];

/// The bin of a row.
type Bin = fn(usize) -> usize;

/// What is timed: its vertices and those of a row, each row's bin, how far about the peg the vertices stand, in millimetres, and whether all
/// rows have one at the peg or only the last does, as its last vertex.
struct Yard {
    name: &'static str,
    vertices: usize,
    row: usize,
    bin: Bin,
    about: f64,
    tied: bool,
}

/// A coordinate so far from the peg at most, but not at it.
fn coordinate(about: f64, r: &mut Random) -> f32 {
    let v = r.between(0.1 * about, about) as f32;
    if r.chance(50) { -v } else { v }
}

/// So many of a row's vertices, the last one being at the peg or not.
fn add_row(lookup: &mut Lookup, k: usize, vertices: usize, yard: &Yard, at_peg: bool, r: &mut Random) {
    let triangles = vertices / 3;
    lookup.body.rows.extend([0, k, 0, vertices, 3 * triangles, (yard.bin)(k)].map(|n| n as u32));
    for n in 0..vertices {
        let at = at_peg && n + 1 == vertices;
        lookup.body.positions.extend([0; PLACE].map(|_: i32| if at { 0.0 } else { coordinate(yard.about, r) }));
        lookup.body.normals.extend([0.0, 0.0, 1.0]);
    }
    lookup.body.indices.extend(0..3 * triangles as u32);
    lookup.places.extend(PEG);
}

fn lookup(yard: &Yard) -> Lookup {
    let (r, rows) = (&mut Random::new(1), yard.vertices.div_ceil(yard.row));
    let mut lookup = Lookup { peg: PEG, ..Lookup::default() };
    for k in 0..rows {
        let vertices = yard.row.min(yard.vertices - yard.row * k);
        add_row(&mut lookup, k, vertices, yard, yard.tied || k + 1 == rows, r);
    }
    lookup
}

/// One winner in bodies of rising size, about as large as bins are and all near the peg; and all rows tied.
fn yards() -> Vec<Yard> {
    let sizes = [900, 30_000, MOST_VERTICES];
    let one = |vertices| {
        [("one vertex near", 3_000.0), ("all vertices near, one winner", 4.0)].map(|(name, about)| Yard {
            name,
            vertices,
            row: ROW,
            bin: |k| 7 * k,
            about,
            tied: false,
        })
    };
    let ways: [(&str, Bin); 3] = [
        ("all rows tied, bins ascending", |k| k),
        ("all rows tied, bins descending", |k| MOST_ROWS - 1 - k),
        ("all rows tied, bins in no order", |k| 2_731 * k % MOST_ROWS),
    ];
    let tied = ways.map(|(name, bin)| Yard { name, vertices: MOST_VERTICES, row: ROW_OF_MOST, bin, about: 4.0, tied: true });
    sizes.into_iter().flat_map(one).chain(tied).collect()
}

/// The median time of a lookup, in milliseconds, and how many bins it finds.
fn time(lookup: &Lookup, tied: bool) -> (f64, usize) {
    let (mut list, wanted) = (vec![0; MOST_ROWS], if tied { MOST_ROWS } else { 1 });
    assert_eq!(nearest_bins(lookup, &mut list).bins as usize, wanted, "the bins that share the smallest sum");
    let rounds = if tied || lookup.body.positions.len() > PLACE * 100_000 { 21 } else { 501 };
    (alone(rounds, || timed(|| nearest_bins(lookup, &mut list)).0) / 1000.0, wanted)
}

/// Lookups in bodies of rising size up to the most vertices there are, in milliseconds.
pub fn table() {
    println!("\npeg:\n\n| triangles | rows | vertices | body | bins | ms |\n|---|---|---|---|---|---|");
    for yard in yards() {
        let lookup = lookup(&yard);
        let (time, bins) = time(&lookup, yard.tied);
        let [triangles, rows, vertices] = [lookup.body.indices.len() / 3, lookup.places.len() / PLACE, yard.vertices].map(grouped);
        println!("| {triangles} | {rows} | {vertices} | {} | {} | {time:.3} |", yard.name, grouped(bins));
    }
}
