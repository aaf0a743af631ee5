//! Sheets made up at random, each a function of its kind, a seed and a size.

mod bins;
mod bodies;
mod edges;
pub mod large;
pub mod long;
pub mod patches;
mod seams;
mod shapes;
mod texts;
mod ties;
mod zeros;

use crate::print;
use crate::random::Random;
use crate::sheet::Sheet;

enum Maker {
    /// A body of about so many pieces on each shape, or of so many triangles at most.
    Body(fn(&mut Random, usize) -> Sheet),
    /// A text that may be no sheet at all, of random numbers and of others for its bins.
    Text(fn(&mut Random, &mut Random) -> Vec<u8>),
}

/// A kind of sheet: its name, what it shows, and how it is made.
pub struct Kind {
    pub name: &'static str,
    pub shows: &'static str,
    maker: Maker,
}

const fn body(name: &'static str, shows: &'static str, make: fn(&mut Random, usize) -> Sheet) -> Kind {
    Kind { name, shows, maker: Maker::Body(make) }
}

const fn text(name: &'static str, shows: &'static str, make: fn(&mut Random, &mut Random) -> Vec<u8>) -> Kind {
    Kind { name, shows, maker: Maker::Text(make) }
}

pub const KINDS: &[Kind] = &[
    body("box", "a closed box, rows wound at random", bodies::boxes),
    body("prism", "a closed prism, rows wound at random", bodies::prism),
    body("torus", "a closed torus cut into rows, wound at random", bodies::torus),
    body("hopper", "a bin on a cone, rows wound at random", bodies::hopper),
    body("shells", "several closed shapes, each a shell, some numbers shared or far apart", bodies::shells),
    body("void", "a box with a smaller box inside it, of the same or another shell", bodies::void),
    body("one-row", "several closed shapes on one row", bodies::one_row),
    body("cracked", "a box whose neighbours cut a shared edge differently", edges::cracked),
    body("t-junction", "points on, near and off an open edge, at the sag and around it", edges::junction),
    body("crowded", "many points on the open edges of one triangle, some within 1e-9 of each other", edges::crowded),
    body("twin-4km", "two bins with back walls a tenth of a millimetre apart, four kilometres from the origin", bodies::twin_four),
    body("twin-7km", "the same at seven kilometres, where a step of f32 is half a millimetre", bodies::twin_seven),
    body("contradictory", "rows that cannot all agree", edges::contradictory),
    body("pinwheel", "edges used by three and more rows", edges::pinwheel),
    body("soup", "triangles on a small grid, in no order", edges::soup),
    body("flat", "sheets that enclose nothing, so that V is 0", edges::flat),
    body("failed", "empty rows, upstream failures and rows without triangles", bodies::failed),
    body("escape", "patches that reach as far as the box's diagonal and beyond", bodies::escape),
    body("materials", "materials by face, replaced, missing, with and without a default", bodies::materials),
    body("tiny", "coordinates around the size of a cell", bodies::tiny),
    text("huge", "coordinates of a size at which cells clamp, up to the end of f32: 24", texts::huge),
    body("farthest", "coordinates up to the last ones whose cells don't clamp, of both signs, beside small ones", bodies::farthest),
    body("subnormal", "subnormal coordinates and normals", bodies::subnormal),
    body("negative-zero", "0.0 on one side of a seam and -0.0 on the other", bodies::negative_zero),
    body("sag", "a sag of zero, below zero, not a number, infinite, subnormal", edges::sag),
    body("body-box", "a box that is empty, of one point, not a number, infinite", bodies::body_box),
    body("same-cell", "loose points of one key with other bits", edges::same_cell),
    body("tie", "points that tie on an edge", edges::tie),
    text("refused", "sheets whose body fails a check: 12, 22, 23", texts::refused),
    text("clamped", "sheets with positions whose cells clamp, used or not, alone and with other faults: 24", texts::clamped),
    text("bins", "sheets whose bins are named, left out, at the limit and past it, alone and with other faults: 15", texts::bins),
    text("limits", "sheets at the bench program's limits and past them: 52, 32", texts::limits),
    text("malformed", "texts that are no sheet: 51", texts::malformed),
];

/// Kinds that stitching splits: patches that cut a seam differently, and long edges past many points.
pub const SEAMS: &[Kind] = &[
    body("seam-line", "a straight edge that both sides cut, each with points of its own, at and off it", seams::line),
    body("seam-arc", "a circle that one band cuts into more parts than the next", seams::arc),
    body("seam-corner", "points near a corner of a triangle, by two of its edges or all three", seams::corner),
    body("seam-sliver", "triangles whose third corner stands on the opposite edge or near it", seams::sliver),
    body("seam-thicket", "triangles anywhere, some with a shared corner or edge", seams::thicket),
    body("seam-close", "points within 1e-9 of each other along an edge, and at 1e-6 from its ends", seams::close),
    body("seam-ends", "corners up to the last coordinates whose cells don't clamp", seams::ends),
    body("seam-cells", "points around a cell apart, subnormal coordinates among them", seams::cells),
    body("seam-crowd", "long edges through one crowd of points, all found on each and most dropped within 1e-9", long::crowds),
    body("seam-bundle", "long edges along one slanting bundle", long::bundles),
];

/// Kinds with both zeros, for what a mesh is closed by.
pub const ZEROS: &[Kind] = &[
    body("zero-seam", "a closed shape across its own axes, 0.0 on one side and -0.0 on the other, or of any sign", zeros::seam),
    body("zero-touch", "solids that touch along an edge, a face or at a corner, each with zeros of its own sign", zeros::touch),
    body("zero-sliver", "triangles of which two corners or three differ by signs of zeros alone", zeros::sliver),
    body("zero-lattice", "triangles on a small lattice, each laid some times with zeros of any sign", zeros::lattice),
];

/// Kinds in which loose points tie on an edge, so that document 01's order decides and the Rust's answer hangs on its maps.
pub const TIES: &[Kind] = &[
    body("tie-grid", "triangles on a small lattice, with a sag that lattice points are exactly as far as", ties::grid),
    body("tie-line", "long edges past points that share a few parameters", ties::line),
    body("tie-finders", "points with one parameter on an edge that isn't open, found by the other two", ties::finders),
];

/// Kinds whose size is a number of triangles, for bodies up to the limits of document 01.
pub const LARGE: &[Kind] = &[
    body("large-torus", "a closed torus in up to 4,096 rows, wound at random", large::closed),
    body("large-open", "a torus with every fifth row left out", large::open),
    body("large-far", "a closed torus four kilometres from the origin", large::far),
    body("large-seams", "patches on a torus or a plane, whose neighbours cut their seams differently", patches::seams),
    body("large-flat", "a plane grid, through the origin or beside it", large::flat),
    body("large-nothing", "a closed torus flattened onto a plane, so that rounding decides the sign of V", large::flattened),
    body("large-twisted", "a band closed with a half twist, whose rows cannot all agree", large::twisted),
    body("large-shells", "many closed shapes, some at one place, some of one shell", large::shells),
    body("large-soup", "triangles on a grid, in no order, with many users an edge", large::soup),
    body("large-pinwheel", "rows around one edge that all triangles use", large::pinwheel),
    body("large-row", "all triangles on one row", large::one_row),
    body("large-points", "as many vertices as a body may have, on few triangles", large::points),
    body("large-full", "as many rows and vertices as a body may have; 262,144 triangles are as many indices", large::full),
];

/// The sheet of a kind and a seed, as text; a size of 0 is a small body within the bench program's limits.
pub fn generate(kind: &Kind, seed: u64, size: usize) -> Vec<u8> {
    match kind.maker {
        Maker::Body(_) => print::sheet(&body_of(kind, seed, size).expect("a body")).into_bytes(),
        Maker::Text(make) => make(&mut random(kind, seed), &mut bins::random(kind.name, seed)),
    }
}

/// The body of a kind and a seed, if the kind makes bodies.
pub fn body_of(kind: &Kind, seed: u64, size: usize) -> Option<Sheet> {
    match kind.maker {
        Maker::Body(make) => Some(bins::given(make(&mut random(kind, seed), size), &mut bins::random(kind.name, seed))),
        Maker::Text(_) => None,
    }
}

pub fn kind(name: &str) -> Option<&'static Kind> {
    KINDS.iter().chain(SEAMS).chain(ZEROS).chain(TIES).chain(LARGE).find(|k| k.name == name)
}

/// Each kind has random numbers of its own.
fn random(kind: &Kind, seed: u64) -> Random {
    random_of(kind.name, seed)
}

fn random_of(name: &str, seed: u64) -> Random {
    let name = name.bytes().fold(0u64, |n, c| n.wrapping_mul(31).wrapping_add(c as u64));
    Random::new(seed.wrapping_mul(0x1_0000_0001).wrapping_add(name))
}
