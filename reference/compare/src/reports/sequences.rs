//! Bodies reported in a row, each on the page that the one before gave: a page of lists laid end to end is the sum of their pages.

use super::bodies::Made;
use super::{Tally, held, nothing, pages};
use crate::work::Work;
use compare::library::{Report, Reported};
use driver::page::{ENTRY, MOST_BODIES, Page, wound};
use driver::random::Random;

/// What bodies in a row gave: the page, its share, and the entries of the face list.
#[derive(PartialEq, Debug)]
struct Row {
    page: Page,
    share: [u64; 2],
    entries: Vec<u32>,
}

fn page_of(answer: &Reported) -> Page {
    let Reported { bodies, accepted, failed, triangles, vertices, empty, upstream, escaped, listed, .. } = *answer;
    Page { bodies, accepted, failed, triangles, vertices, empty, upstream, escaped, listed }
}

/// Bodies reported one after another from the empty page, with one face list and one work area.
fn in_a_row(yard: &[Made], r: &mut Random) -> Result<Row, String> {
    let needed: usize = yard.iter().map(|made| wound(&made.body).len()).sum();
    let words = yard.iter().map(|made| made.body.words()).max().unwrap_or(0);
    let (mut list, mut work) = (pages::former(ENTRY * needed + r.size(0, 5), r), Work::new(words + r.size(0, 5), r.next()));
    let (mut page, mut share, mut cleared) = (Page::default(), [1, 1], 0);
    for (k, made) in yard.iter().enumerate() {
        let asked = Report { body: made.body.clone(), reference: made.reference, page };
        let (answer, left) = held::with(&asked, &list, &mut work).map_err(|what| format!("body {k} of {}: {what}", yard.len()))?;
        cleared = made.body.words().max(cleared);
        work.wrong(cleared).map_or(Ok(()), |what| Err(format!("body {k} of {}: {what}", yard.len())))?;
        (page, share, list) = (page_of(&answer), [answer.share_accepted, answer.share_faces], left);
    }
    list.truncate(ENTRY * page.listed as usize);
    Ok(Row { page, share, entries: list })
}

/// All bodies in a row, and the two parts of that row from the empty page each: sums, the fraction reduced anew, and lists end to end.
pub fn held(yard: &[Made], r: &mut Random, tally: &mut Tally) -> Result<(), String> {
    let k = r.size(0, yard.len());
    let (first, second, whole) = (in_a_row(&yard[..k], r)?, in_a_row(&yard[k..], r)?, in_a_row(yard, r)?);
    let page = first.page.sum(&second.page);
    let laid = Row { page, share: page.share(), entries: [first.entries, second.entries].concat() };
    tally.rows += 1;
    tally.in_rows += yard.len() as u64;
    if whole == laid { Ok(()) } else { Err(format!("{k} and {} bodies give {laid:?}, all together {whole:?}", yard.len() - k)) }
}

/// As many bodies without rows as a page may have, and one more, which is refused.
pub fn most_bodies(r: &mut Random) -> Result<(), String> {
    let mut page = Page::default();
    for k in 0..=MOST_BODIES {
        let answer = held::report(&nothing(page), &pages::former(r.size(0, 3), r), Work::new(r.size(0, 3), r.next()))?;
        let wanted = if k < MOST_BODIES { 0 } else { 67 };
        assert_eq!(answer.refusal, wanted, "a page has {MOST_BODIES} bodies at most");
        page = page_of(&answer);
    }
    Ok(())
}
