//! A report that checks, counts, writes and clears; right but for one fault.

use super::Wrong;
use super::audit::listed;
use super::sums::{page_of, share, summed};
use compare::library::{Report, Reported};
use driver::check::refusal;
use driver::flat::ROW;
use driver::page::{MOST_BODIES, MOST_EACH, Page};

/// The number that a body and its work area are refused with, or 0; what a fault doesn't check is made good first.
fn of_body(asked: &Report, words: usize, wrong: Wrong) -> u32 {
    let mut body = asked.body.clone();
    match (refusal(&body, words), wrong) {
        (15, Wrong::BinsUnchecked) => body.rows.iter_mut().skip(ROW - 1).step_by(ROW).for_each(|bin| *bin = 0),
        (23, Wrong::NormalsUnchecked) => body.normals.fill(0.0),
        (24, Wrong::ClampedUnchecked) => body.positions.fill(0.0),
        (31, Wrong::WorkUnchecked) => return 0,
        (number, _) => return number,
    }
    refusal(&body, words)
}

/// The most that a count of a page may be.
fn limit(page: &Page, wrong: Wrong) -> u64 {
    match wrong {
        Wrong::LimitOfMostBodies => MOST_EACH * MOST_BODIES,
        Wrong::LimitOfNextBody => MOST_EACH * (page.bodies + 1),
        Wrong::LimitOfOneBody => MOST_EACH,
        Wrong::LimitRefused if page.bodies > 0 => MOST_EACH * page.bodies - 1,
        Wrong::EmptyPageUnchecked if page.bodies == 0 => u64::MAX,
        _ => MOST_EACH * page.bodies,
    }
}

/// Whether 67 is due of a page, which with a body becomes these sums.
fn beyond(page: &Page, sums: &Page, wrong: Wrong) -> bool {
    let bodies = if wrong == Wrong::BodiesOf32Bits { page.bodies & 0xffff_ffff } else { page.bodies };
    let most = match wrong {
        Wrong::MostBodiesTaken => MOST_BODIES + 1,
        Wrong::LastBodyRefused => MOST_BODIES - 1,
        _ => MOST_BODIES,
    };
    if bodies >= most {
        return true;
    }
    let limit = limit(&Page { bodies, ..*page }, wrong);
    let counts = if wrong == Wrong::SumsChecked { sums.counts() } else { page.counts() };
    let count = |k: usize| if wrong == Wrong::CountOf32Bits { counts[k] & 0xffff_ffff } else { counts[k] };
    let kinds = page.empty.wrapping_add(page.upstream).wrapping_add(page.escaped);
    (0..8).any(|k| count(k) > limit && wrong != Wrong::CountUnchecked(k)) || (wrong == Wrong::KindsHeldToFailed && kinds != page.failed)
}

/// Whether 69 is due of so many new entries, with a list of so many numbers.
fn no_room(asked: &Report, new: usize, numbers: usize, wrong: Wrong) -> bool {
    let (listed, rows) = (asked.page.listed, (asked.body.rows.len() / ROW) as u64);
    let room = match wrong {
        Wrong::RoomOfNumbers => numbers as u64,
        Wrong::RoomRoundedUp => numbers.div_ceil(2) as u64,
        _ => numbers as u64 / 2,
    };
    let needed = match wrong {
        Wrong::RoomOnlyForNew | Wrong::CutToRoom if new == 0 || wrong == Wrong::CutToRoom => 0,
        Wrong::RoomForAllRows => listed.saturating_add(rows),
        Wrong::RoomWithoutListed => new as u64,
        Wrong::RoomForOneMore => listed.saturating_add(new as u64).saturating_add(1),
        _ => listed.saturating_add(new as u64),
    };
    needed > room
}

/// The first of three numbers that isn't 0: the body's, 67 and 69, in an order that goes with the fault.
fn first(body: u32, page: u32, room: u32, wrong: Wrong) -> u32 {
    let order = match wrong {
        Wrong::RoomBeforePage => [body, room, page],
        Wrong::PageBeforeBody => [page, body, room],
        Wrong::PageBeforeClamped if body == 24 => [page, body, room],
        Wrong::PageBeforeWork if body == 31 => [page, body, room],
        Wrong::RoomBeforeWork if body == 31 && page == 0 => [room, body, page],
        _ => [body, page, room],
    };
    order.into_iter().find(|number| *number != 0).unwrap_or(0)
}

/// Entries written to the list, as far as there is a place for them.
fn write(list: &mut [u32], entries: &[[u32; 2]], page: &Page, wrong: Wrong) {
    let from = match wrong {
        Wrong::WrittenAtZero => 0,
        Wrong::WrittenAtListedNumbers => page.listed as usize,
        Wrong::WrittenOneBehind => 2 * (page.listed as usize + 1),
        _ => (page.listed as usize).saturating_mul(2),
    };
    let numbers = entries.as_flattened();
    for (k, number) in numbers.iter().enumerate() {
        if let Some(place) = list.get_mut(from.saturating_add(k)) {
            *place = *number;
        }
    }
    let end = from.saturating_add(numbers.len()).min(list.len());
    match wrong {
        Wrong::TailCleared => list[end..].fill(0),
        Wrong::EndMarked if end < list.len() => list[end] = u32::MAX,
        Wrong::FrontCleared => list[..from.min(end)].fill(0),
        _ => {}
    }
}

/// The words that 31 counts made 0, unless a check up to 31 refuses.
fn clear(work: &mut [u64], words: usize, number: u32, wrong: Wrong) {
    let counted = words.min(work.len());
    let cleared = match (number, wrong) {
        (1..=31, Wrong::WorkClearedBeforePage) => counted,
        (1..=31, _) | (_, Wrong::WorkKept) | (67, Wrong::WorkKeptOnPage) | (69, Wrong::WorkKeptOnRoom) => 0,
        (_, Wrong::WorkAllCleared) => work.len(),
        (_, Wrong::WorkLastKept) => counted.saturating_sub(1),
        _ => counted,
    };
    work[..cleared].fill(0);
}

fn answer(number: u32, sums: &Page, share: [u64; 2], wrong: Wrong) -> Reported {
    let none = Reported { refusal: number, ..Reported::default() };
    let all = Reported {
        bodies: sums.bodies,
        accepted: sums.accepted,
        failed: sums.failed,
        triangles: sums.triangles,
        vertices: sums.vertices,
        empty: sums.empty,
        upstream: sums.upstream,
        escaped: sums.escaped,
        listed: sums.listed,
        share_accepted: share[0],
        share_faces: share[1],
        ..none
    };
    match (number, wrong) {
        (0, _) | (_, Wrong::PageOfRefused) => all,
        (_, Wrong::ShareOfRefused) => Reported { share_accepted: 1, share_faces: 1, ..none },
        _ => none,
    }
}

/// Adds a body to a page.
pub fn report(asked: &Report, list: &mut [u32], work: &mut [u64], wrong: Wrong) -> Reported {
    let body = of_body(asked, work.len(), wrong);
    let counted = matches!(body, 0 | 31) || (body == 24 && wrong != Wrong::ClampedUnchecked);
    let entries = if counted { listed(&asked.body, &asked.reference, wrong) } else { Vec::new() };
    let own = if counted { page_of(&asked.body, &asked.reference, entries.len(), wrong) } else { Page::default() };
    let sums = summed(&asked.page, &own, wrong);
    let page = if beyond(&asked.page, &sums, wrong) { 67 } else { 0 };
    let room = if no_room(asked, entries.len(), list.len(), wrong) { 69 } else { 0 };
    let number = first(body, page, room, wrong);
    if number == 0 || (number == 69 && wrong == Wrong::WrittenThenRefused) {
        write(list, &entries, &asked.page, wrong);
    }
    clear(work, asked.body.words(), number, wrong);
    answer(number, &sums, share(&asked.page, &own, &sums, wrong), wrong)
}
