//! Assembling against the end of the unchanged Rust's `tessellate_solid`, and its refusals.

mod cases;
mod refusals;
mod settings;
mod slices;
mod tally;

use crate::lent;
use crate::open::most_open;
use crate::work::Work;
use cases::{Case, as_given, finished, outputs};
use compare::library::{Assembled, Mesh, Setting};
use driver::condition::open_triangles;
use driver::flat::{Flat, ROW};
use driver::random::Random;
use driver::sheet::Sheet;
use refusals::{is_small, refusals};
use slices::{unlike, written};

pub use cases::{answer_of, mesh_of, mesh_room};
pub use refusals::refused;
pub use settings::varied;
pub use slices::{unlike as mesh_unlike, written as laid_over};
pub use tally::Tally;

/// What is wrong with a call: its answer, the outputs it leaves, or the work area of which it should clear some words.
fn wrong(body: &Flat, setting: &Setting, outputs: &Mesh, mut work: Work, want: Assembled, left: &Mesh, cleared: usize) -> Option<String> {
    let mut out = outputs.clone();
    let what = match lent::assemble(body, setting, &mut out, &mut work) {
        Err(what) => Some(what),
        Ok(got) if got != want => Some(format!("{want:?}, not {got:?}")),
        Ok(_) => unlike(left, &out).or_else(|| work.wrong(cleared)),
    };
    what.map(|what| format!("assemble: {what}; {}", shown(body, setting)))
}

/// A body's table and what it was assembled with, long lists cut short.
fn shown(body: &Flat, setting: &Setting) -> String {
    let (b, list) = (&setting.reference, &setting.materials);
    let corners = [b.min.x, b.min.y, b.min.z, b.max.x, b.max.y, b.max.z].map(|c| format!("{:016X}", c.to_bits())).join(" ");
    let (table, entries) = (&body.rows[..body.rows.len().min(8 * ROW)], &list[..list.len().min(8)]);
    format!("table {table:?}, box {corners}, default {}, {} entries: {entries:?}", setting.default, list.len())
}

/// What is wrong with a body's mesh.
fn differs(case: &Case, r: &mut Random) -> Option<String> {
    let (outputs, cleared) = (outputs(case, r), case.body.words());
    let work = Work::new(cleared + r.size(0, 5), r.next());
    wrong(&case.body, &case.setting, &outputs, work, case.answer, &written(&case.mesh, &outputs), cleared)
}

/// The sheet, or one that splits nothing where stitching it would take long.
pub fn stitchable(sheet: &Sheet) -> Sheet {
    let long = f64::from_bits(sheet.sag) > 0.0 && open_triangles(sheet) > most_open();
    Sheet { sag: if long { 0 } else { sheet.sag }, ..sheet.clone() }
}

/// What was assembled of a body, or where it differs: finished by the Rust with its own box and materials and with others, and as it
/// is given with others still; 41 and 42 are asked of a large body once. The random numbers are this part's own.
pub fn compared(sheet: &Sheet, seed: u64) -> Result<Tally, String> {
    let r = &mut Random::new(seed ^ 0xa55e_3b1e);
    let sheet = &stitchable(sheet);
    let (one, other) = (varied(sheet, r), varied(sheet, r));
    let cases = [
        finished("finished", sheet, r),
        finished("finished, with rows and materials varied", &one, r),
        Some(as_given("as given, with rows and materials varied", &other, r)),
    ];
    let mut tally = Tally::default();
    for case in cases.into_iter().flatten() {
        let named = |what| format!("{}: {what}", case.name);
        differs(&case, r).map_or(Ok(()), Err).map_err(named)?;
        tally.count(&case.answer, &case.mesh);
        if is_small(&case.body) || tally.refusals == 0 {
            tally.refusals += refusals(&case, r).map_err(named)?;
        }
    }
    Ok(tally)
}

/// A body assembled as it is given, whose edges, open and over and whether it is closed are known; or what differs.
pub fn by_hand(sheet: &Sheet, counts: [u64; 3], closed: bool, seed: u64) -> Result<Tally, String> {
    let r = &mut Random::new(seed);
    let case = as_given("as given", sheet, r);
    let Assembled { edges, opens, overs, closed: is_closed, .. } = case.answer;
    assert_eq!(([edges, opens, overs], is_closed), (counts, closed as u32), "the Rust's counts and the model's closed of {sheet:?}");
    differs(&case, r).map_or(Ok(()), Err)?;
    let mut tally = Tally::default();
    tally.count(&case.answer, &case.mesh);
    Ok(tally)
}
