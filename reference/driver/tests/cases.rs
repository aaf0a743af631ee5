//! The bench cases of document 01 that a sheet can show, its worked example, those of 02's two zeros, and the tools' own rules.

use cad_tess::face::{patch_of, probe};
use driver::check::{LAST_UNCLAMPED, check, clamps, refusal};
use driver::closed::{NEGATIVE_ZERO, uses};
use driver::command::answer;
use driver::condition::{Condition, condition};
use driver::finish::{faces_of, finish, outcome_of};
use driver::flat::{Flat, ROW};
use driver::generate::{KINDS, LARGE, SEAMS, TIES, ZEROS, body_of, generate, kind};
use driver::print;
use driver::sheet::{BENCH, parse};
use driver::source::{cell, key};
use driver::tail::assemble;
use std::fs;
use std::path::PathBuf;

fn cases() -> PathBuf {
    PathBuf::from(env!("CARGO_MANIFEST_DIR")).join("../cases")
}

fn sheet_text(name: &str) -> Vec<u8> {
    fs::read(cases().join(format!("{name}.sheet"))).expect("a stored sheet")
}

fn answer_text(name: &str) -> String {
    match answer(&sheet_text(name), Some(&BENCH)) {
        Ok(done) => print::finished(&done),
        Err(refusal) => format!("(refused {})\n", refusal.number),
    }
}

#[test]
fn every_stored_case_has_its_stored_answer() {
    let mut count = 0;
    for entry in fs::read_dir(cases()).expect("the stored cases") {
        let path = entry.expect("a file").path();
        if path.extension().is_some_and(|e| e == "sheet") {
            let name = path.file_stem().expect("a name").to_string_lossy().to_string();
            let stored = fs::read_to_string(path.with_extension("answer")).expect("a stored answer");
            assert_eq!(answer_text(&name), stored, "{name}");
            count += 1;
        }
    }
    assert_eq!(count, 15);
}

#[test]
fn stored_answers_say_what_the_paper_says() {
    let says = |name: &str, lines: &[&str]| {
        let text = answer_text(name);
        for line in lines {
            assert!(text.lines().any(|l| l == *line), "{name}: {line}");
        }
    };
    says("K5", &["(mesh 0 0)", "(turned 0)", "(against 0)", "(split 0)", "(ok 0)", "(edges 0)", "(open 0)", "(over 0)", "(closed 1)"]);
    says("K6", &["(turned 0)"]);
    says("K6-reversed", &["(turned 1)"]);
    says("K7", &["(turned 0)", "(against 2)"]);
    says("K8", &["(split 1)", "(t 0 3 1)", "(t 0 1 2)"]);
    says("K9-stays", &["(ok 1)"]);
    says("K9-escapes", &["(ok 0)", "(failed 0 0 (escape 4024000020000000 4024000000000000))"]);
    says("K2-stays", &["(ok 1)", "(edges 3)", "(open 3)", "(over 0)"]);
    says("K2-clamps", &["(refused 24)"]);
    says("K10", &["(refused 24)"]);
    says("K10-farthest", &["(ok 1)"]);
    says("N5-seam", &["(edges 12)", "(open 6)", "(over 0)", "(closed 1)"]);
    says("N5-touch", &["(edges 12)", "(open 0)", "(over 0)", "(closed 0)"]);
    says("N5-sliver", &["(edges 3)", "(open 3)", "(over 0)", "(closed 1)"]);
}

/// The bins of a body's rows stand in its ranges and failures, and cover nothing else.
#[test]
fn bins_stand_beside_what_the_rust_says() {
    let mut failed = 0;
    for seed in 0..40 {
        let sheet = body_of(kind("failed").expect("a kind"), seed, 0).expect("a body");
        let done = finish(&sheet).expect("a body within the limits");
        let mut bare = sheet.clone();
        bare.rows.iter_mut().for_each(|row| row.bin = 0);
        let mut covered = done.clone();
        covered.ranges.iter_mut().for_each(|range| range.1 = 0);
        covered.failures.iter_mut().for_each(|failure| failure.1 = 0);
        assert_eq!(finish(&bare).expect("a body within the limits"), covered, "seed {seed}");
        let shown = done.ranges.iter().map(|r| (r.0, r.1)).chain(done.failures.iter().map(|f| (f.0, f.1)));
        let mut shown: Vec<(u32, u32)> = shown.collect();
        let mut given: Vec<(u32, u32)> = sheet.rows.iter().map(|row| (row.face, row.bin)).collect();
        shown.sort();
        given.sort();
        assert_eq!(shown, given, "seed {seed}");
        failed += done.failures.len();
    }
    assert!(failed > 0);
}

/// Counted by bits as the model counts, edges, open and over are the Rust's, and with −0.0 made 0.0 they say whether a mesh is closed.
#[test]
fn the_model_of_closed_counts_as_the_rust_does() {
    let (mut joined, mut touching) = (0, 0);
    for (k, seed) in KINDS.iter().chain(ZEROS).flat_map(|k| (0..60).map(move |seed| (k, seed))) {
        let Some(sheet) = body_of(k, seed, 0).filter(|sheet| check(sheet).is_ok()) else { continue };
        let done = assemble(faces_of(&sheet), &sheet);
        let uses = uses(&done.positions, &done.indices, |p| p.map(f32::to_bits));
        let count = |holds: fn(&usize) -> bool| uses.values().filter(|n| holds(n)).count();
        assert_eq!((uses.len(), count(|n| *n == 1), count(|n| *n > 2)), (done.edges, done.open, done.over), "{} {seed}", k.name);
        let mut plain = sheet.clone();
        plain.rows.iter_mut().flat_map(|row| &mut row.positions).flatten().filter(|b| **b == NEGATIVE_ZERO).for_each(|b| *b = 0);
        let same = assemble(faces_of(&plain), &plain);
        assert_eq!(done.closed(), same.open == 0 && same.over == 0, "{} {seed}", k.name);
        joined += (done.closed() && done.open > 0) as usize;
        touching += (!done.closed() && done.open == 0 && done.over == 0) as usize;
    }
    assert!(joined > 0 && touching > 0);
}

#[test]
fn the_volume_of_k6() {
    let sheet = parse(&sheet_text("K6"), None).expect("a sheet");
    let patch = patch_of(outcome_of(&sheet.rows[0])).expect("a patch");
    assert_eq!(probe::patch_volume(&patch, false).to_bits(), 0x3FC5_5555_5555_5555);
}

#[test]
fn cells_of_k1_and_k2() {
    assert_eq!([cell(0.0078125), cell(-0.0078125), cell(-0.0)], [7813, -7813, 0]);
    assert_eq!([cell(8_796_093_022_208.0), cell(17_592_186_044_416.0)], [8_796_093_022_208_000_000, i64::MAX]);
    assert_eq!([clamps(8_796_093_022_208.0), clamps(17_592_186_044_416.0)], [false, true]);
    assert_eq!(key(&[0.0, 0.0, 0.0]), 0xD852_DCB8_7B6F_12A3);
}

/// K2's second half: two corners that are far apart share a clamped cell, so that to the Rust they are one point; the body is refused.
#[test]
fn the_second_half_of_k2_is_a_refused_body() {
    let (first, second) = ([17_592_186_044_416.0, 0.0, 0.0], [3e13, 0.0, 0.0]);
    assert_eq!((key(&first), cell(first[0])), (key(&second), i64::MAX));
    let sheet = parse(&sheet_text("K2-clamps"), None).expect("a sheet");
    let corners: Vec<[f32; 3]> = sheet.rows[0].positions.iter().map(|p| p.map(f32::from_bits)).collect();
    assert_eq!(corners[..2], [first, second]);
    assert_eq!(check(&sheet).expect_err("a refused body").number, 24);
    assert_eq!(refusal(&Flat::of(&sheet), usize::MAX), 24);
}

/// A cell clamps exactly if the whole number that a million times the coordinate is, all its digits written out, is past 64 bits.
#[test]
fn cells_clamp_where_their_digits_pass_64_bits() {
    let last = f32::from_bits(LAST_UNCLAMPED);
    assert_eq!([cell(last), cell(-last)], [9_223_372_013_568_000_000, -9_223_372_013_568_000_000]);
    assert_eq!([clamps(last), clamps(-last), clamps(last.next_up()), clamps(-last.next_up())], [false, false, true, true]);
    assert_eq!([f32::INFINITY, f32::NEG_INFINITY, f32::NAN, -f32::NAN].map(clamps), [true, true, false, false]);
    let every = (0..0x7f80_0000u32).step_by(65_521).chain(LAST_UNCLAMPED - 9..LAST_UNCLAMPED + 9).chain([1, 0x7f7f_ffff]);
    for v in every.flat_map(|bits| [f32::from_bits(bits), -f32::from_bits(bits)]) {
        let away = format!("{v:.0}000000");
        let inside = v.abs() < 1e9 || away.parse::<i64>().is_ok();
        assert_eq!(clamps(v), !inside, "{v:e}");
        assert_eq!(clamps(v), v.to_bits() << 1 > LAST_UNCLAMPED << 1, "{v:e}");
        assert!(!clamps(v) || cell(v) == if v < 0.0 { i64::MIN } else { i64::MAX }, "{v:e}");
    }
}

/// Bodies of the generator whose kind isn't one of texts are accepted: none has a coordinate whose cell clamps.
#[test]
fn generated_bodies_do_not_clamp() {
    let mut last = 0;
    for (k, seed) in KINDS.iter().chain(SEAMS).chain(ZEROS).chain(TIES).flat_map(|k| (0..60).map(move |seed| (k, seed))) {
        for sheet in [0, 5].into_iter().filter_map(|size| body_of(k, seed, size)) {
            assert!(check(&sheet).is_ok(), "{} {seed}", k.name);
            let mut bits = sheet.rows.iter().flat_map(|row| &row.positions).flatten();
            last += bits.any(|bits| bits << 1 == LAST_UNCLAMPED << 1) as usize;
        }
    }
    assert!(last > 60);
}

/// Most bodies made for it have points that tie on an edge, and no other reason for the Rust to differ.
#[test]
fn points_tie_in_bodies_of_ties() {
    for k in TIES {
        let bodies = [0, 5].into_iter().flat_map(|size| (0..30).filter_map(move |seed| body_of(k, seed, size)));
        let tied = bodies.filter(|sheet| condition(sheet) == Condition::Tie).count();
        assert!(tied > 30, "{}: {tied} of 60", k.name);
    }
}

#[test]
fn what_is_generated_reads_back_and_is_the_same_every_time() {
    for k in KINDS.iter().chain(SEAMS).chain(ZEROS).chain(TIES) {
        for seed in 0..20 {
            let text = generate(k, seed, 0);
            assert_eq!(text, generate(k, seed, 0), "{} {seed}", k.name);
            if let Some(body) = driver::generate::body_of(k, seed, 0) {
                assert_eq!(parse(&text, None), Ok(body), "{} {seed}", k.name);
            }
        }
    }
}

#[test]
fn refusals_have_their_numbers() {
    let start = "(box 0000000000000000 0000000000000000 0000000000000000 0000000000000000 0000000000000000 0000000000000000)\n(sag 0000000000000000)\n(default -)\n";
    let number = |rest: &str| answer(format!("{start}{rest}").as_bytes(), Some(&BENCH)).map_or_else(|r| r.number, |_| 0);
    let cases = [
        ("", 0),
        ("(face 0 0)\n", 0),
        ("(face 0 0)", 51),
        ("(face 0 00)\n", 51),
        ("(face 0 4294967296)\n", 51),
        ("(face 0 64)\n", 52),
        ("(face 0 0 0)\n", 0),
        ("(face 0 0 65535)\n", 0),
        ("(face 0 0 65536)\n", 15),
        ("(face 0 0 4294967295)\n", 15),
        ("(face 0 0 4294967296)\n", 51),
        ("(face 0 0 00)\n", 51),
        ("(face 0 0 )\n", 51),
        ("(face 0 0 0 0)\n", 51),
        ("(face 0 64 65536)\n", 52),
        ("(face 0 0 65536)\n(face 0 64)\n", 52),
        ("(face 0 0 65536)\n(face)\n", 51),
        ("(face 0 0 65536)\n(t 0 1 2)\n", 15),
        ("(face 0 0 65536)\n(v (p 7F800000 00000000 00000000) (n 00000000 00000000 00000000))\n", 15),
        ("(fail 0 7 1 65536)\n", 15),
        ("(fail 0 7 255 65535)\n", 0),
        ("(fail 0 7 256 65536)\n", 12),
        ("(face 0 0 65536)\n(fail 0 7 256)\n", 12),
        ("(fail 0 7 0 65536)\n", 51),
        ("(material 64 1)\n", 52),
        ("(material 1 4294967295)\n", 0),
        ("(fail 0 1 0)\n", 51),
        ("(fail 0 64 0)\n", 51),
        ("(fail 0 1 256)\n", 12),
        ("(fail 0 1 256)\n(face)\n", 51),
        ("(face 0 1)\n(t 0 1 2)\n", 22),
        ("(face 0 1)\n(v (p 7F800000 00000000 00000000) (n 00000000 00000000 00000000))\n", 23),
        ("(face 0 1)\n(v (p 00000000 00000000 00000000) (n 00000000 00000000 7FC00000))\n", 23),
        ("(face 0 1)\n(v (p 550637BD D50637BD 00000000) (n 00000000 00000000 00000000))\n", 0),
        ("(face 0 1)\n(v (p 550637BE 00000000 00000000) (n 00000000 00000000 00000000))\n", 24),
        ("(face 0 1)\n(v (p 00000000 D50637BE 00000000) (n 00000000 00000000 00000000))\n", 24),
        ("(face 0 1)\n(v (p 00000000 00000000 7F7FFFFF) (n 00000000 00000000 00000000))\n", 24),
        ("(face 0 1)\n(v (p 00000000 00000000 00000000) (n 550637BE FF7FFFFF 7F7FFFFF))\n", 0),
        ("(face 0 1)\n(v (p 550637BE 00000000 00000000) (n 00000000 00000000 7FC00000))\n", 23),
        ("(face 0 1)\n(v (p 550637BE 7F800001 00000000) (n 00000000 00000000 00000000))\n", 23),
        ("(face 0 1)\n(v (p 550637BE 00000000 00000000) (n 00000000 00000000 00000000))\n(t 0 0 1)\n", 22),
        ("(face 0 1 65536)\n(v (p 550637BE 00000000 00000000) (n 00000000 00000000 00000000))\n", 15),
        ("(fail 0 1 1)\n(material 1 1)\n", 51),
        ("\n", 51),
        ("(default -)\n", 51),
    ];
    for (text, want) in cases {
        assert_eq!(number(text), want, "{text}");
    }
    assert_eq!(answer(b"", None).expect_err("no sheet").number, 51);
}

#[test]
fn sizes_grow_a_body() {
    let torus = kind("torus").expect("a kind");
    let body = driver::generate::body_of(torus, 1, 40).expect("a body");
    assert_eq!(body.indices(), 40 * 40 * 6);
}

#[test]
fn large_kinds_keep_to_their_triangles_and_the_limits() {
    for k in LARGE {
        for (seed, triangles) in [(1, 1000), (2, 30_000)] {
            let body = body_of(k, seed, triangles).expect("a body");
            assert!(check(&body).is_ok() && body.indices() > 0 && body.indices() <= 3 * triangles, "{} {seed}", k.name);
        }
    }
    let full = body_of(kind("large-full").expect("a kind"), 1, 262_144).expect("a body");
    assert_eq!((full.rows.len(), full.vertices(), full.indices()), (4096, 262_144, 786_432));
}

/// A change to a lent body, and the number that it gives.
type Change = (fn(&mut Flat), u32);

#[test]
fn slices_are_refused_with_their_numbers() {
    let body = Flat::of(&parse(&sheet_text("K7"), None).expect("a sheet"));
    let words = body.words();
    let changes: [Change; 20] = [
        (|_| (), 0),
        (|b| b.rows.truncate(2 * ROW - 1), 11),
        (|b| b.rows.resize(ROW * 4097, 0), 11),
        (|b| b.rows[2] = 256, 12),
        (|b| b.rows[2] = 1, 12),
        (|b| b.rows[3] = u32::MAX, 13),
        (|b| b.normals.push(0.0), 14),
        (|b| (b.rows[ROW - 1], b.rows[2 * ROW - 1]) = (65_535, 1), 0),
        (|b| b.rows[2 * ROW - 1] = 65_536, 15),
        (|b| (b.rows[4], b.rows[ROW + 4], b.rows[ROW - 1]) = (4, 5, u32::MAX), 15),
        (|b| (b.rows[ROW - 1], b.normals) = (65_536, Vec::new()), 14),
        (|b| (b.rows[4], b.rows[ROW + 4]) = (4, 5), 21),
        (|b| b.indices[2] = 3, 22),
        (|b| b.positions[0] = f32::NEG_INFINITY, 23),
        (|b| b.positions[26] = f32::from_bits(LAST_UNCLAMPED), 0),
        (|b| b.positions[26] = f32::from_bits(LAST_UNCLAMPED + 1), 24),
        (|b| b.positions[0] = -f32::from_bits(LAST_UNCLAMPED + 1), 24),
        (|b| b.normals.fill(f32::MAX), 0),
        (|b| (b.positions[0], b.normals[26]) = (f32::MAX, f32::NAN), 23),
        (|b| (b.positions[0], b.positions[26]) = (f32::MAX, f32::NAN), 23),
    ];
    for (change, number) in changes {
        let mut other = body.clone();
        change(&mut other);
        assert_eq!(refusal(&other, words), number);
    }
    assert_eq!(words, 16 * 9 + 16 * 2 + 4 * 9);
    assert_eq!(refusal(&body, words - 1), 31);
    let clamped = Flat { positions: vec![f32::MIN; 27], ..body };
    assert_eq!([refusal(&clamped, words - 1), refusal(&clamped, 0)], [24, 24]);
}
