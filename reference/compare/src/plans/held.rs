//! One call held to the model: its answer, the whole slice that it may write, and all that it may not touch.

use super::model;
use crate::lent;
use compare::library::{PlanRead, PlanWritten};

/// Where two slices that should be the same differ first.
fn differ<T: PartialEq + std::fmt::Debug>(name: &str, found: &[T], wanted: &[T]) -> Result<(), String> {
    match (0..wanted.len()).find(|k| found[*k] != wanted[*k]) {
        Some(k) => Err(format!("{name} {k} is {:?}, not {:?}", found[k], wanted[k])),
        None => Ok(()),
    }
}

/// Reads a text into a list with former numbers; the number of its refusal, or what differs.
pub fn read(text: &[u8], former: &[i64]) -> Result<u32, String> {
    let (mut list, mut wanted) = (former.to_vec(), former.to_vec());
    let answer = lent::read_plan(text, &mut list)?;
    let expected = match model::read(text, former.len()) {
        Ok(entries) => {
            let numbers = model::flat(&entries);
            wanted[..numbers.len()].copy_from_slice(&numbers);
            PlanRead { refusal: 0, entries: entries.len() as u64 }
        }
        Err(refusal) => PlanRead { refusal, entries: 0 },
    };
    if answer != expected {
        return Err(format!("reading into {} numbers answers {answer:?}, not {expected:?}", former.len()));
    }
    differ(&format!("read into {} numbers, number", former.len()), &list, &wanted)?;
    Ok(answer.refusal)
}

/// Writes a list into a slice with former bytes; the number of its refusal, or what differs.
pub fn write(list: &[i64], former: &[u8]) -> Result<u32, String> {
    let (mut out, mut wanted) = (former.to_vec(), former.to_vec());
    let answer = lent::write_plan(list, &mut out)?;
    let expected = match model::write(list, former.len()) {
        Ok(text) => {
            wanted[..text.len()].copy_from_slice(text.as_bytes());
            PlanWritten { refusal: 0, length: text.len() as u64 }
        }
        Err(refusal) => PlanWritten { refusal, length: 0 },
    };
    if answer != expected {
        return Err(format!("writing into {} bytes answers {answer:?}, not {expected:?}", former.len()));
    }
    differ(&format!("written into {} bytes, byte", former.len()), &out, &wanted)?;
    Ok(answer.refusal)
}

/// Writes a list that must be accepted, and reads the call's own text again, which must give the same list.
pub fn round_trip(list: &[i64], room: usize) -> Result<(), String> {
    let (mut text, mut again) = (vec![0xEE; room], vec![0x77; list.len()]);
    let written = lent::write_plan(list, &mut text)?;
    text.truncate(written.length as usize);
    let read = lent::read_plan(&text, &mut again)?;
    if (written.refusal, read.refusal) != (0, 0) || again != list {
        return Err(format!("a list of {} numbers is written and read again: {written:?}, {read:?}, other numbers", list.len()));
    }
    Ok(())
}
