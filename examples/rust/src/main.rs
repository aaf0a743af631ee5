//! Two grain bins side by side, 0.1 mm apart, finished by the library: three walls are wound inward, and the first bin's lid has a
//! vertex in the middle of its front edge, where the front wall has none. Millimetres.

use std::error::Error;

use body_finisher::{Aabb, BinId, Body, Entry, FaceId, Finisher, MaterialId, Point, RowError, Setting};

/// A box's walls by their corners, seen from outside; bit 0 of a corner is x, bit 1 is y, bit 2 is z.
const WALLS: [([u32; 4], Point); 6] = [
    ([0, 2, 3, 1], [0.0, 0.0, -1.0]),
    ([4, 5, 7, 6], [0.0, 0.0, 1.0]),
    ([0, 1, 5, 4], [0.0, -1.0, 0.0]),
    ([2, 6, 7, 3], [0.0, 1.0, 0.0]),
    ([0, 4, 6, 2], [-1.0, 0.0, 0.0]),
    ([1, 3, 7, 5], [1.0, 0.0, 0.0]),
];
const LID: usize = 1;

/// A bin from y = front to y = back, with some walls wound inward and their normals inside.
fn add_bin(body: &mut Body, shell: u32, [front, back]: [f32; 2], inward: &[usize], cracked_lid: bool) -> Result<(), RowError> {
    let corner =
        |k: u32| [if k & 1 != 0 { 3000.0 } else { 0.0 }, if k & 2 != 0 { back } else { front }, if k & 4 != 0 { 6000.0 } else { 0.0 }];
    for (wall, (corners, normal)) in WALLS.iter().enumerate() {
        let face = FaceId(body.rows.len() as u32);
        let mut positions = corners.map(corner).to_vec();
        if wall == LID && cracked_lid {
            positions.insert(1, [1500.0, front, 6000.0]);
            body.push_patch(shell, face, BinId(shell + 1), &positions, &[*normal; 5], &[0, 1, 4, 1, 2, 3, 1, 3, 4])?;
        } else if inward.contains(&wall) {
            body.push_patch(shell, face, BinId(shell + 1), &positions, &[normal.map(|x| -x); 4], &[0, 2, 1, 0, 3, 2])?;
        } else {
            body.push_patch(shell, face, BinId(shell + 1), &positions, &[*normal; 4], &[0, 1, 2, 0, 2, 3])?;
        }
    }
    Ok(())
}

fn main() -> Result<(), Box<dyn Error>> {
    let mut body = Body::default();
    add_bin(&mut body, 0, [0.0, 2500.0], &[2], true)?;
    add_bin(&mut body, 1, [2500.1, 5000.1], &[3, 5], false)?;

    // The floor and lid of both bins are of material 2; all else has the default, material 0.
    let (steel, none) = (Entry::from(MaterialId(2)), Entry::NONE);
    let setting = Setting {
        bounds: Aabb { min: [0.0; 3], max: [3000.0, 5000.1, 6000.0] },
        materials: &[steel, steel, none, none, none, none, steel, steel],
        default: Entry::from(MaterialId(0)),
    };
    let done = Finisher::new().finish(body.view(), 0.05, &setting)?;

    let (counts, mesh) = (&done.counts, &done.mesh);
    println!("turned {}\nagainst {}\nsplits {}", counts.turned.turned, counts.turned.against, counts.stitched.splits);
    println!("mesh of {} vertices, {} indices, {} failures", mesh.positions.len(), mesh.indices.len(), mesh.failures.len());
    for part in &mesh.parts {
        println!("material {}: {} indices from {} on", part.material.0, part.count, part.start);
    }
    let edges = &counts.assembled;
    println!("edges {}\nopen edges {}\nover {}", edges.edges, edges.opens, edges.overs);
    println!("{}", if edges.closed { "closed" } else { "not closed" });
    Ok(())
}
