//! The memory that finishing a body takes besides the body: the slices lent to the library, and the most that the unchanged Rust's three
//! steps hold at once.

use bench::bodies::{Body, with_open_edges};
use bench::shown::{grouped, kilobytes};
use cad_ir::brep::Solid;
use cad_tess::face::probe;
use compare::library::{FAILURE, PART, RANGE};
use driver::finish::{box_of, face_materials, faces_of};
use driver::flat::{Flat, ROW};
use driver::sheet::Sheet;
use driver::tail::{Faces, tail};
use std::alloc::{GlobalAlloc, Layout, System};
use std::sync::atomic::{AtomicUsize, Ordering::Relaxed};

/// The system's allocator, counting the bytes that are held and the most that were.
struct Counting;

static HELD: AtomicUsize = AtomicUsize::new(0);
static MOST: AtomicUsize = AtomicUsize::new(0);

fn took(bytes: usize) {
    MOST.fetch_max(HELD.fetch_add(bytes, Relaxed) + bytes, Relaxed);
}

// Sound: every call goes to the system's allocator as it came.
unsafe impl GlobalAlloc for Counting {
    unsafe fn alloc(&self, layout: Layout) -> *mut u8 {
        took(layout.size());
        unsafe { System.alloc(layout) }
    }

    unsafe fn dealloc(&self, block: *mut u8, layout: Layout) {
        HELD.fetch_sub(layout.size(), Relaxed);
        unsafe { System.dealloc(block, layout) }
    }

    unsafe fn realloc(&self, block: *mut u8, layout: Layout, size: usize) -> *mut u8 {
        took(size);
        HELD.fetch_sub(layout.size(), Relaxed);
        unsafe { System.realloc(block, layout, size) }
    }
}

#[global_allocator]
static COUNTING: Counting = Counting;

/// The most bytes held at once while a piece of work runs, beyond those held before.
fn most_held<T>(work: impl FnOnce() -> T) -> (usize, T) {
    let before = HELD.load(Relaxed);
    MOST.store(before, Relaxed);
    let result = work();
    (MOST.load(Relaxed) - before, result)
}

fn size<T>(count: usize) -> usize {
    count * size_of::<T>()
}

/// A row of the table: the body, the slices lent to the library, and the Rust's most.
fn row(body: Body) {
    let sheet: Sheet = (body.make)();
    let (flat, sag) = (Flat::of(&sheet), f64::from_bits(sheet.sag));
    let mut faces: Faces = faces_of(&sheet);
    let (solid, materials) = (Solid::new(Vec::new(), box_of(&sheet)), face_materials(&sheet));
    let rows = sheet.rows.len();
    let (most, (vertices, indices)) = most_held(|| {
        probe::orient_shell(&mut faces);
        probe::stitch_t_junctions(&mut faces, sag);
        let patches = || faces.iter().flat_map(|(_, _, patch)| patch);
        let size = (patches().map(|p| p.positions.len()).sum::<usize>(), patches().map(|p| p.indices.len()).sum::<usize>());
        tail("body", &solid, faces, None, &materials);
        size
    });
    let words = (16 * indices + 16 * rows + 4 * vertices).max(flat.words());
    let second = size::<u32>(ROW * rows) + size::<f32>(6 * vertices) + size::<u32>(indices);
    let mesh = size::<f32>(6 * vertices) + size::<u32>(indices + (PART + RANGE) * rows) + size::<u64>(FAILURE * rows);
    let own = size::<u64>(words) + second + mesh;
    println!(
        "| {} | {} | {} | {} | {} | {} | {} | {} | {} | {:.1} |",
        grouped(sheet.indices() / 3),
        grouped(rows),
        body.name,
        grouped(words),
        kilobytes(size::<u64>(words)),
        kilobytes(second),
        kilobytes(mesh),
        kilobytes(own),
        kilobytes(most),
        own as f64 / most as f64
    );
}

fn main() {
    println!(
        "| triangles | rows | body | work area, words | work area, kB | stitched body, kB | mesh and tables, kB | ours in all, kB | the Rust's most, kB | ratio |"
    );
    println!("|---|---|---|---|---|---|---|---|---|---|");
    with_open_edges().into_iter().for_each(row);
}
