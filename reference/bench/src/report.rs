//! The report of a body: the lines of the unchanged Rust's winding audit on its patches, the library's report on its slices, and beside
//! them the library's turning of the same body, which a report should not take longer than.

use bench::bodies::closed_and_open;
use bench::race::{Times, alone, race, timed};
use bench::shown::{grouped, time};
use compare::library::{Report, report, turn};
use driver::audit;
use driver::finish::{box_of, faces_of};
use driver::flat::{Flat, ROW};
use driver::page::{ENTRY, Page};
use driver::sheet::Sheet;

/// A body added to the empty page by the library, beside the Rust's audit of it; both must list as many faces. The Rust uses its patches
/// up, so it gets a copy made before the clock starts. The library's work area and face list are the same each time.
fn reported(sheet: &Sheet, rounds: usize) -> Times {
    let (faces, body) = (faces_of(sheet), Flat::of(sheet));
    let (mut list, mut work) = (vec![0; ENTRY * (body.rows.len() / ROW)], vec![0; body.words()]);
    let asked = Report { reference: box_of(sheet), page: Page::default(), body };
    let (mut wound, mut listed) = (0, 0);
    let rust = || {
        let copy = faces.clone();
        let (time, counted) = timed(|| audit::against(copy));
        wound = counted.len();
        time
    };
    let ours = || {
        let (time, answer) = timed(|| report(&asked, &mut list, &mut work));
        assert_eq!(answer.refusal, 0, "the body is reported");
        listed = answer.listed as usize;
        time
    };
    let times = race(rounds, rust, ours);
    assert_eq!(listed, wound, "both sides agree");
    times
}

/// The median time in which the library turns a copy of a body.
fn turned(sheet: &Sheet, rounds: usize) -> f64 {
    let body = Flat::of(sheet);
    let mut work = vec![0; body.words()];
    alone(rounds, || {
        let mut copy = body.clone();
        timed(|| turn(&mut copy, &mut work)).0
    })
}

/// Each body as it is given, with rows wound at random so that faces are listed, and as the library turns it, of which none is.
fn as_given_and_turned(sheet: &Sheet) -> [(&'static str, Sheet); 2] {
    let mut body = Flat::of(sheet);
    let mut work = vec![0; body.words()];
    turn(&mut body, &mut work);
    let (mut turned, mut indices) = (sheet.clone(), body.indices.iter());
    for row in &mut turned.rows {
        row.indices.iter_mut().zip(indices.by_ref()).for_each(|(index, new)| *index = *new);
    }
    [("as given", sheet.clone()), ("turned", turned)]
}

/// Closed and open bodies of rising size, in microseconds; the last column is the report's time by that of turning.
pub fn table() {
    println!(
        "\nreport:\n\n| triangles | rows | body | Rust's audit, µs | report, µs | turn, µs | report by turn |\n|---|---|---|---|---|---|---|"
    );
    for body in closed_and_open() {
        let sheet = (body.make)();
        let own = turned(&sheet, body.rounds);
        for (how, sheet) in as_given_and_turned(&sheet) {
            let Times { rust, ours } = reported(&sheet, body.rounds);
            let (triangles, rows) = (grouped(sheet.indices() / 3), grouped(sheet.rows.len()));
            println!(
                "| {triangles} | {rows} | {}, {how} | {} | {} | {} | {:.2} |",
                body.name,
                time(rust),
                time(ours),
                time(own),
                ours / own
            );
        }
    }
}
