//! A writer of plans that is right but for one fault.

use super::{Fault, Wrong};
use crate::plans::model::{MOST_BIN, MOST_OFFSET};
use compare::library::{ENTRY, MOST_ENTRIES, PlanWritten};

/// The number of an entry that offends, so many being before it.
fn refusal(entry: &[i64], before: usize, wrong: Wrong) -> Option<u32> {
    let most_bin = MOST_BIN + i64::from(wrong == Wrong::LargerBin);
    let least_bin = -i64::from(wrong == Wrong::NegativeBin);
    let most = match wrong {
        Wrong::LargerPlace => MOST_OFFSET + 1,
        Wrong::SmallerPlace => MOST_OFFSET - 1,
        _ => MOST_OFFSET,
    };
    let room = match wrong {
        Wrong::MoreEntries => usize::MAX,
        Wrong::FewerEntries => MOST_ENTRIES - 1,
        _ => MOST_ENTRIES,
    };
    let bin = !(least_bin..=most_bin).contains(&entry[0]);
    let place = entry[1..].iter().any(|n| !(-most..=most).contains(n));
    let checks = [(61, bin), (63, place), (64, before >= room)];
    let order = if wrong == Wrong::RoomBeforePlace { [0, 2, 1] } else { [0, 1, 2] };
    order.iter().map(|k| checks[*k]).find(|(_, fails)| *fails).map(|(number, _)| number)
}

/// A line of the text.
fn line(entry: &[i64], wrong: Wrong) -> String {
    let shown = |n: i64| if wrong == Wrong::NoMinus { n.unsigned_abs().to_string() } else { n.to_string() };
    format!("(bin {} {} {} {})\n", shown(entry[0]), shown(entry[1]), shown(entry[2]), shown(entry[3]))
}

/// What is wrong with a list, which has a text of so many bytes for a slice of so many.
fn refused(list: &[i64], length: usize, room: usize, wrong: Wrong) -> Option<u32> {
    let entries = || list.chunks_exact(ENTRY).enumerate();
    let short = (length + usize::from(wrong == Wrong::OneByteMore) > room).then_some(68);
    if wrong == Wrong::ShortFirst && short.is_some() {
        return short;
    }
    if wrong == Wrong::BinsFirst && entries().any(|(k, entry)| refusal(entry, k, wrong) == Some(61)) {
        return Some(61);
    }
    let rest = list.chunks_exact(ENTRY).remainder();
    let offending = entries().find_map(|(k, entry)| refusal(entry, k, wrong));
    offending.or(if wrong == Wrong::RestIsRead && !rest.is_empty() { Some(61) } else { short })
}

/// Writes a list.
pub fn write(list: &[i64], out: &mut [u8], fault: Fault) -> PlanWritten {
    let wrong = fault.writer;
    let mut lines: Vec<String> = list.chunks_exact(ENTRY).map(|entry| line(entry, wrong)).collect();
    if wrong == Wrong::Backwards {
        lines.reverse();
    }
    let mut text = lines.concat();
    if wrong == Wrong::LastLineOpen {
        text.pop();
    }
    let refusal = refused(list, text.len(), out.len(), wrong);
    if refusal.is_none() || wrong == Wrong::WrittenBeforeRefusal {
        text.bytes().zip(out.iter_mut()).for_each(|(byte, place)| *place = byte);
    }
    if refusal.is_none() && text.len() < out.len() {
        match wrong {
            Wrong::TailCleared => out[text.len()..].fill(0),
            Wrong::EndMarked => out[text.len()] = 0,
            _ => {}
        }
    }
    let length = if refusal.is_none() || wrong == Wrong::EntriesOfRefused { text.len() as u64 } else { 0 };
    PlanWritten { refusal: refusal.unwrap_or(0), length }
}
