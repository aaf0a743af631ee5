//! One report held to the model: its answer, the whole face list, the work area, and all that it may not touch.

use crate::lent;
use crate::work::Work;
use compare::library::{Report, Reported};
use driver::page::{ENTRY, Page, reported};

/// The last number up to which a refusal leaves the work area as it was.
const LAST_UNTOUCHED: u32 = 31;

/// The answer that is a page.
fn answer_of(page: &Page) -> Reported {
    let Page { bodies, accepted, failed, triangles, vertices, empty, upstream, escaped, listed } = *page;
    let [share_accepted, share_faces] = page.share();
    #[rustfmt::skip]
    let answer = Reported {
        refusal: 0, bodies, accepted, failed, triangles, vertices, empty, upstream, escaped, listed, share_accepted, share_faces,
    };
    answer
}

/// Reports a body with a list of former numbers; the answer and the list, or what differs.
pub fn with(asked: &Report, former: &[u32], work: &mut Work) -> Result<(Reported, Vec<u32>), String> {
    let (mut list, mut wanted, words) = (former.to_vec(), former.to_vec(), work.lent().len());
    let answer = lent::report(asked, &mut list, work).map_err(|what| shown(asked, former.len(), &what))?;
    let expected = match reported(&asked.body, &asked.reference, &asked.page, former.len(), words) {
        Ok((page, entries)) => {
            let (from, new) = (ENTRY * asked.page.listed as usize, entries.as_flattened());
            wanted[from..from + new.len()].copy_from_slice(new);
            answer_of(&page)
        }
        Err(refusal) => Reported { refusal, ..Reported::default() },
    };
    if answer != expected {
        return Err(shown(asked, former.len(), &format!("{expected:?}, not {answer:?}")));
    }
    match (0..wanted.len()).find(|k| list[*k] != wanted[*k]) {
        Some(k) => Err(shown(asked, former.len(), &format!("number {k} of the list: {}, not {}", wanted[k], list[k]))),
        None => Ok((answer, list)),
    }
}

/// What differs, with the page, the box and the start of the table.
fn shown(asked: &Report, numbers: usize, what: &str) -> String {
    let (rows, b) = (&asked.body.rows, &asked.reference);
    let corners = [b.min.x, b.min.y, b.min.z, b.max.x, b.max.y, b.max.z].map(|c| format!("{:016X}", c.to_bits())).join(" ");
    format!("report with a list of {numbers} numbers: {what}; {:?}, table {:?}, box {corners}", asked.page, &rows[..rows.len().min(48)])
}

/// The same with a work area of its own, of which the words that 31 counts must come back zero where no check up to 31 refuses.
pub fn report(asked: &Report, former: &[u32], mut work: Work) -> Result<Reported, String> {
    let (answer, _) = with(asked, former, &mut work)?;
    let cleared = if (1..=LAST_UNTOUCHED).contains(&answer.refusal) { 0 } else { asked.body.words() };
    work.wrong(cleared).map_or(Ok(answer), |what| Err(shown(asked, former.len(), &what)))
}
