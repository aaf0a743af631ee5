//! Which bin holds this probe peg? Two grain bins stand four kilometres out, a tenth of a millimetre between their walls, and pegs sit
//! at the foot of that gap. Each bin is drawn near its own origin, where 32-bit positions are fine enough, and a plan places both by
//! whole micrometres: the nearest bin is found exactly. Then the same bins are drawn where they stand, in one drawing. Positions are a
//! quarter of a millimetre apart there, both walls fall together, and no peg tells the bins apart any more.

use std::error::Error;

use body_finisher::{nearest_bins, places_of, read_plan, BinId, Body, FaceId, Place, RowError};

/// Pegs in micrometres, and how far each is from the corners of both bins.
const PEGS: [(Place, &str); 4] = [
    ([0, 4_002_500_030, 0], "30 from bin 1 and 70 from bin 2"),
    ([0, 4_002_500_070, 0], "70 from bin 1 and 30 from bin 2"),
    ([0, 4_002_500_050, 0], "50 from both"),
    ([-1_000_000, 4_002_500_050, 0], "a metre from both"),
];

/// A box's walls, two triangles each; bit 0 of a corner is x, bit 1 is y, bit 2 is z.
const WALLS: [u32; 36] = [0, 2, 3, 0, 3, 1, 4, 5, 7, 4, 7, 6, 0, 1, 5, 0, 5, 4, 2, 6, 7, 2, 7, 3, 0, 4, 6, 0, 6, 2, 1, 3, 7, 1, 7, 5];

/// A bin of 3 m by 2.5 m, 6 m high, drawn from y = front on. No peg asks for normals.
fn bin(number: u32, front: f64) -> Result<Body, RowError> {
    let y = |corner: usize| if corner & 2 != 0 { front + 2500.0 } else { front };
    let corners: [_; 8] =
        std::array::from_fn(|k| [if k & 1 != 0 { 3000.0 } else { 0.0 }, y(k) as f32, if k & 4 != 0 { 6000.0 } else { 0.0 }]);
    let mut body = Body::default();
    body.push_patch(0, FaceId(0), BinId(number), &corners, &[[0.0; 3]; 8], &WALLS)?;
    Ok(body)
}

/// Both bins lent as one body, a row for each.
fn both(first: Body, second: Body) -> Body {
    let mut yard = first;
    yard.append(second.view());
    yard
}

/// Where the two walls stand, and the nearest bins of every peg.
fn ask(yard: &Body, places: &[Place]) -> Result<(), Box<dyn Error>> {
    // What is drawn here is whole micrometres. Corner 2 of bin 1 is on its back wall, corner 0 of bin 2 on its front wall.
    let stands_at = |row: usize, corner: usize| places[row][1] + (1000.0 * f64::from(yard.positions[8 * row + corner][1])) as i64;
    let (back, front) = (stands_at(0, 2), stands_at(1, 0));
    println!("  bin 1's wall at y {back}, bin 2's at y {front}: {} micrometres between them", front - back);
    for (peg, words) in PEGS {
        let bins = nearest_bins(yard.view(), places, peg)?;
        let numbers: Vec<String> = bins.iter().map(|bin| bin.0.to_string()).collect();
        let answer = match numbers.len() {
            0 => "no bin".to_string(),
            1 => format!("bin {}", numbers[0]),
            _ => format!("bins {}", numbers.join(" and ")),
        };
        let [x, y, z] = peg;
        println!("  peg at ({x}, {y}, {z}), {words}: {answer}");
    }
    Ok(())
}

fn main() -> Result<(), Box<dyn Error>> {
    let file = std::env::args_os().nth(1).ok_or("usage: which_bin PLAN")?;
    let plan = read_plan(&std::fs::read(file)?)?;

    println!("each bin drawn near its own origin and placed by the plan:");
    let placed = both(bin(1, 0.0)?, bin(2, 0.0)?);
    ask(&placed, &places_of(placed.view(), &plan)?)?;

    println!("both bins in one drawing, four kilometres out:");
    ask(&both(bin(1, 4_000_000.0)?, bin(2, 4_002_500.1)?), &[[0; 3]; 2])
}
