//! Cuts pieces out of the unchanged source, word for word: the closure `key`, so that the tools can ask for one point's key and cell;
//! the end of `tessellate_solid` behind turning and stitching, so that they can assemble a body as it stands and time that alone; and
//! its winding audit, so that they have the counts of all faces and not only of the twelve that it prints.

use std::{env, fs, path::Path};

/// The text from one mark up to another, the marks standing once each.
fn between<'a>(text: &'a str, from: &str, to: &str) -> &'a str {
    let once = |mark: &str| {
        assert_eq!(text.matches(mark).count(), 1, "once in the source: {mark}");
        text.find(mark).expect("a mark")
    };
    &text[once(from)..once(to)]
}

fn key(text: &str) -> String {
    let start = text.find("    let key = |p: &[f32; 3]| {").expect("the closure `key`");
    let end = start + text[start..].find("\n    };\n").expect("the closure's end") + 8;
    let closure = &text[start..end];
    let cell = closure.lines().find(|l| l.trim_start().starts_with("let q = |v: f32|")).expect("the closure `q`");
    format!(
        "/// The source's key of a point.\npub fn key(p: &[f32; 3]) -> u64 {{\n{closure}    key(p)\n}}\n\n/// The source's cell of a coordinate.\npub fn cell(v: f32) -> i64 {{\n{cell}\n    q(v)\n}}\n"
    )
}

/// The mesh made ready; acceptance, runs, parts and ranges; the three counts. All other diagnostics are left out.
fn tail(text: &str) -> String {
    let ready = between(text, "    let (mut want_vertices, mut want_indices) =", "    // The solid's own vertices under-describe a body");
    let strays = between(text, "    let trace_strays = ", "    // The file's per-face sense flags contradict each other");
    let laid = between(text, "    for (_shell, fid, result) in faces {\n", "    // Per-face crack attribution:");
    let uses = between(text, "        let mut ids: rustc_hash::", "        if std::env::var_os(\"CAD_TESS_TRACE_OPEN\")");
    let counts = between(text, "        let open = uses.values()", "        let mut by_kind:");
    format!(
        "/// The end of the source's `tessellate_solid`: faces laid into a mesh as they stand, and its edges counted.\npub fn tail(name: &str, solid: &Solid, faces: Faces, material: Option<MaterialId>, face_materials: &[Option<MaterialId>]) -> Tail {{\n    let reference = solid.geometric_bounds();\n{ready}{strays}{laid}{uses}{counts}    Tail {{ mesh, report, ranges: face_ranges, edges: uses.len(), open, over }}\n}}\n"
    )
}

/// The winding audit up to its counts by face number, before they are ranked and some of them printed.
fn audit(text: &str) -> String {
    let from = "        let mut used: rustc_hash::FxHashMap<(u64, u64), (usize, u32)> = Default::default();\n        let key = ";
    let counted = between(text, from, "        // Which faces share an edge with more than one other: an edge used by");
    assert!(counted.contains("let mut against: rustc_hash::FxHashMap<u32, usize>"), "the audit counts by face number");
    format!(
        "/// The source's winding audit of rows as they stand: each face number wound against a neighbour, with its count.\n\
         pub fn against(faces: Faces) -> rustc_hash::FxHashMap<u32, usize> {{\n{counted}        against\n}}\n"
    )
}

fn main() {
    let source = "../cad-tess/src/lib.rs";
    println!("cargo:rerun-if-changed={source}");
    let text = fs::read_to_string(source).expect("the unchanged source");
    let folder = env::var("OUT_DIR").expect("OUT_DIR");
    for (name, piece) in [("key.rs", key(&text)), ("tail.rs", tail(&text)), ("audit.rs", audit(&text))] {
        fs::write(Path::new(&folder).join(name), piece).expect("a piece written");
    }
}
