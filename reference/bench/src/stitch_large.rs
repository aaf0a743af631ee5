//! Stitching bodies that the unchanged Rust takes many seconds for, once each, and bodies at the limits, or that take longest, by the library
//! alone: the Rust would take minutes to hours for these, since its time goes with open edges times loose points.

use crate::stitch::stitched_room;
use bench::bodies::Body;
use bench::open_bodies::{at_the_limits, large, longest};
use bench::race::{alone_or_once, timed};
use bench::shown::{grouped, time};
use cad_tess::face::probe;
use compare::library::{self, Stitched};
use driver::check::MOST_VERTICES;
use driver::finish::faces_of;
use driver::flat::Flat;
use driver::sheet::Sheet;

/// The library's time and its answer, in slices with room for any result.
fn ours(sheet: &Sheet, rounds: usize) -> (f64, Stitched) {
    let (body, sag) = (Flat::of(sheet), f64::from_bits(sheet.sag));
    let more = MOST_VERTICES - body.positions.len() / 3;
    let (mut out, mut work) = (stitched_room(&body, more), vec![0; body.words()]);
    let mut answer = None;
    let median = alone_or_once(rounds, || {
        let (time, made) = timed(|| library::stitch(&body, sag, &mut out, &mut work));
        answer = Some(made);
        time
    });
    (median, answer.expect("a body stitched"))
}

/// The Rust's time and its splits.
fn theirs(sheet: &Sheet, rounds: usize) -> (f64, usize) {
    let (faces, sag) = (faces_of(sheet), f64::from_bits(sheet.sag));
    let mut splits = 0;
    let median = alone_or_once(rounds, || {
        let mut copy = faces.clone();
        let (time, found) = timed(|| probe::stitch_t_junctions(&mut copy, sag));
        splits = found;
        time
    });
    (median, splits)
}

fn row(body: &Body, by_rust: bool) {
    let sheet = (body.make)();
    let (own, answer) = ours(&sheet, body.rounds);
    let rust = by_rust.then(|| theirs(&sheet, body.rounds));
    if let Some((_, splits)) = rust {
        assert_eq!((answer.refusal, answer.splits), (0, splits as u64), "both sides agree");
    }
    let splits = if answer.refusal == 0 { grouped(answer.splits as usize) } else { format!("refused {}", answer.refusal) };
    let (theirs, ratio) = rust.map_or(("-".into(), "-".into()), |(rust, _)| (time(rust), format!("{:.4}", own / rust)));
    let (triangles, rows) = (grouped(sheet.indices() / 3), grouped(sheet.rows.len()));
    println!("| {triangles} | {rows} | {} | {splits} | {theirs} | {} | {ratio} |", body.name, time(own));
}

fn heading(name: &str) {
    println!("\n{name}:\n\n| triangles | rows | body | splits | Rust, µs | ours, µs | ratio |\n|---|---|---|---|---|---|---|");
}

/// Bodies that take the library up to minutes, by it alone.
pub fn table_of_longest() {
    heading("stitch-longest");
    longest().iter().for_each(|body| row(body, false));
}

pub fn table() {
    heading("stitch-large");
    large().iter().for_each(|body| row(body, true));
    at_the_limits().iter().for_each(|body| row(body, false));
}
