//! Times the library's stages beside the unchanged Rust's, in one process, on the same bodies, in turn; the report of a body beside turning
//! it; and plans and the lookup of a peg's bins, which the Rust has not.

mod assemble;
mod growth;
mod peg;
mod plan;
mod report;
mod stitch;
mod stitch_large;
mod turn;
mod whole;

use bench::bodies::{Body, closed_and_open, with_open_edges, with_zeros, yard};
use bench::open_bodies::open_throughout;
use bench::race::Times;
use bench::shown::{grouped, time};
use driver::command::fail;
use driver::sheet::Sheet;

const USAGE: &str = "usage: bench [STAGE]   a table of each stage, or of one: turn, turn-new-work, stitch, stitch-new-slices,
       assemble, assemble-new-slices, assemble-zeros, assemble-materials, assemble-materials-new-slices, whole, whole-new-slices, yard,
       growth, growth-open, plan, peg, report
       bench stitch-large   bodies that the Rust takes many seconds to stitch, and bodies at the limits by the library alone: minutes
       bench stitch-longest   bodies inside the limits that take longest, by the library alone: up to half an hour";

/// A stage's name, the bodies it is timed on, and how both sides are timed on a body, so many rounds.
type Stage = (&'static str, fn() -> Vec<Body>, fn(&Sheet, usize) -> Times);

const STAGES: &[Stage] = &[
    ("turn", closed_and_open, turn::times),
    ("turn-new-work", closed_and_open, turn::times_with_new_work),
    ("stitch", to_stitch, stitch::times),
    ("stitch-new-slices", with_open_edges, stitch::times_with_new_slices),
    ("assemble", closed_and_open, assemble::times),
    ("assemble-new-slices", closed_and_open, assemble::times_with_new_slices),
    ("assemble-zeros", with_zeros, assemble::times),
    ("assemble-materials", closed_and_open, assemble::times_with_materials),
    ("assemble-materials-new-slices", closed_and_open, assemble::times_with_materials_and_new_slices),
    ("whole", with_open_edges, whole::times),
    ("whole-new-slices", with_open_edges, whole::times_with_new_slices),
];

/// Tables of another form.
const OTHERS: &[(&str, fn())] = &[
    ("yard", table_of_yard),
    ("growth", growth::table),
    ("growth-open", growth::table_of_open_edges),
    ("plan", plan::table),
    ("peg", peg::table),
    ("report", report::table),
];

/// Tables that take minutes and are printed by name only.
const LONG: &[(&str, fn())] = &[("stitch-large", stitch_large::table), ("stitch-longest", stitch_large::table_of_longest)];

const YARD_ROUNDS: usize = 101;

/// Bodies with few open edges and with many.
fn to_stitch() -> Vec<Body> {
    with_open_edges().into_iter().chain(open_throughout()).collect()
}

fn row(stage: &Stage, body: Body) {
    let sheet = (body.make)();
    let Times { rust, ours } = stage.2(&sheet, body.rounds);
    let (triangles, rows) = (grouped(sheet.indices() / 3), grouped(sheet.rows.len()));
    println!("| {triangles} | {rows} | {} | {} | {} | {:.2} |", body.name, time(rust), time(ours), ours / rust);
}

/// Free a large block, after which the allocator keeps freed pages: otherwise the Rust's maps cost more in the first rows than later.
fn settle_allocator() {
    drop(std::hint::black_box(vec![1u8; 31 << 20]));
}

fn table(stage: &Stage) {
    println!("\n{}:\n\n| triangles | rows | body | Rust, µs | ours, µs | ratio |\n|---|---|---|---|---|---|", stage.0);
    stage.1().into_iter().for_each(|body| row(stage, body));
}

/// Many small bodies one after another.
fn table_of_yard() {
    let sheets = yard();
    let triangles: usize = sheets.iter().map(|sheet| sheet.indices() / 3).sum();
    println!("\nyard:\n\n| bodies | triangles | slices | Rust, µs | ours, µs | ratio |\n|---|---|---|---|---|---|");
    for (name, kept) in [("kept", true), ("made anew for each body", false)] {
        let Times { rust, ours } = whole::times_of_all(&sheets, YARD_ROUNDS, kept);
        println!("| {} | {} | {name} | {} | {} | {:.2} |", sheets.len(), grouped(triangles), time(rust), time(ours), ours / rust);
    }
}

fn main() {
    let words: Vec<String> = std::env::args().skip(1).collect();
    settle_allocator();
    match words.iter().map(String::as_str).collect::<Vec<_>>()[..] {
        [] => {
            STAGES.iter().for_each(table);
            OTHERS.iter().for_each(|(_, print)| print());
        }
        ["--help"] => println!("{USAGE}"),
        [name] => match (STAGES.iter().find(|stage| stage.0 == name), OTHERS.iter().chain(LONG).find(|other| other.0 == name)) {
            (Some(stage), _) => table(stage),
            (_, Some(other)) => other.1(),
            _ => fail(&format!("bench: no stage {name}; see --help")),
        },
        _ => fail(USAGE),
    }
}
