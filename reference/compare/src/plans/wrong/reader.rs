//! A reader of plans that goes byte by byte and carries the offsets of the open groups; right but for one fault.

use super::{Fault, Wrong};
use crate::plans::model::{MOST_BIN, MOST_DEPTH, MOST_OFFSET};
use compare::library::{ENTRY, MOST_ENTRIES, PlanRead};

/// The rest of a text.
struct Text<'a> {
    rest: &'a [u8],
    wrong: Wrong,
}

impl Text<'_> {
    /// Passes a word, if it is next.
    fn word(&mut self, word: &[u8]) -> Option<()> {
        self.rest = self.rest.strip_prefix(word)?;
        Some(())
    }

    /// Passes the end of a line.
    fn end(&mut self) -> Option<()> {
        if self.wrong == Wrong::CarriageReturn {
            let _ = self.word(b"\r");
        }
        if self.wrong == Wrong::NoLastLineFeed && self.rest.is_empty() { Some(()) } else { self.word(b"\n") }
    }

    /// The digits that are next, as a number up to a limit.
    fn digits(&mut self, most: i64) -> Option<i64> {
        let count = self.rest.iter().take_while(|byte| byte.is_ascii_digit()).count();
        let (digits, rest) = self.rest.split_at(count);
        if count == 0 || (count > 1 && digits[0] == b'0' && self.wrong != Wrong::LeadingZero) {
            return None;
        }
        let mut number = 0i64;
        for digit in digits {
            let more = i64::from(digit - b'0');
            let grown = number.checked_mul(10).and_then(|n| n.checked_add(more));
            number = if self.wrong == Wrong::NumbersWrap { number.wrapping_mul(10).wrapping_add(more) } else { grown? };
        }
        self.rest = rest;
        (number <= most).then_some(number)
    }

    /// A number behind a space, with a minus if that is allowed.
    fn number(&mut self, most: i64, signed: bool) -> Option<i64> {
        self.word(b" ")?;
        if self.wrong == Wrong::PlusSign && self.word(b"+").is_some() {
            return self.digits(most);
        }
        if !signed || self.word(b"-").is_none() {
            return self.digits(most);
        }
        self.digits(most).filter(|n| *n != 0 || self.wrong == Wrong::MinusZero).map(|n| -n)
    }

    fn offset(&mut self) -> Option<[i64; 3]> {
        let most = match self.wrong {
            Wrong::LargerOffset => MOST_OFFSET + 1,
            Wrong::SmallerOffset => MOST_OFFSET - 1,
            _ => MOST_OFFSET,
        };
        Some([self.number(most, true)?, self.number(most, true)?, self.number(most, true)?])
    }
}

/// A plan while it is read: the offsets of the open groups, what closed ones left behind by a fault, and the entries so far.
struct Reading {
    wrong: Wrong,
    room: usize,
    open: Vec<[i64; 3]>,
    left: [i64; 3],
    entries: Vec<[i64; ENTRY]>,
}

impl Reading {
    fn new(room: usize, wrong: Wrong) -> Reading {
        Reading { wrong, room, open: Vec::new(), left: [0; 3], entries: Vec::new() }
    }

    /// Where a bin stands.
    fn place(&self, own: [i64; 3]) -> [i64; 3] {
        let groups = match self.wrong {
            Wrong::OwnOffsetOnly => &[],
            Wrong::InnermostGroupOnly => &self.open[self.open.len().saturating_sub(1)..],
            _ => &self.open[..],
        };
        let mut place: [i64; 3] = std::array::from_fn(|axis| own[axis] + self.left[axis] + groups.iter().map(|g| g[axis]).sum::<i64>());
        match self.wrong {
            Wrong::AxesExchanged => place.swap(1, 2),
            Wrong::ThirtyTwoBits => place = place.map(|n| i64::from(n as i32)),
            _ => {}
        }
        place
    }

    fn beyond(&self, place: [i64; 3]) -> bool {
        let most = match self.wrong {
            Wrong::LargerPlace => MOST_OFFSET + 1,
            Wrong::SmallerPlace => MOST_OFFSET - 1,
            _ => MOST_OFFSET,
        };
        place.iter().any(|n| n.abs() > most)
    }

    fn open(&mut self, offset: [i64; 3]) -> Result<(), u32> {
        if self.open.len() == most_depth(self.wrong) {
            return Err(62);
        }
        self.open.push(offset);
        if self.wrong == Wrong::GroupSumsHeld && self.beyond(self.place([0; 3])) { Err(63) } else { Ok(()) }
    }

    fn close(&mut self) -> Result<(), u32> {
        let Some(mut closed) = self.open.pop() else {
            return if self.wrong == Wrong::CloseWithoutGroup { Ok(()) } else { Err(61) };
        };
        match self.wrong {
            Wrong::CloseDropsOutermost => {
                if let Some(outermost) = self.open.first_mut() {
                    std::mem::swap(outermost, &mut closed);
                }
            }
            Wrong::CloseDropsNone => self.left = std::array::from_fn(|axis| self.left[axis] + closed[axis]),
            Wrong::CloseDropsAll => self.open.fill([0; 3]),
            _ => {}
        }
        Ok(())
    }

    fn bin(&mut self, bin: i64, own: [i64; 3]) -> Result<(), u32> {
        let place = self.place(own);
        if self.wrong == Wrong::RoomBeforePlace && self.entries.len() == self.room {
            return Err(64);
        }
        if self.beyond(place) {
            return Err(63);
        }
        let again = self.wrong == Wrong::TwiceNamedOnce && self.entries.iter().any(|entry| entry[0] == bin);
        if again {
            return Ok(());
        }
        if self.entries.len() == self.room {
            return Err(64);
        }
        self.entries.push([bin, place[0], place[1], place[2]]);
        Ok(())
    }
}

/// How many groups may be open at once.
fn most_depth(wrong: Wrong) -> usize {
    match wrong {
        Wrong::SeventeenthGroup => MOST_DEPTH + 1,
        Wrong::FifteenGroups => MOST_DEPTH - 1,
        _ => MOST_DEPTH,
    }
}

/// How many entries a list of so many numbers has room for.
fn room_of(length: usize, wrong: Wrong) -> usize {
    match wrong {
        Wrong::MoreEntries => length / ENTRY,
        Wrong::FewerEntries => (length / ENTRY).min(MOST_ENTRIES - 1),
        Wrong::RoomRoundedUp => length.div_ceil(ENTRY).min(MOST_ENTRIES),
        _ => (length / ENTRY).min(MOST_ENTRIES),
    }
}

/// Reads the next line.
fn line(text: &mut Text, reading: &mut Reading) -> Result<(), u32> {
    let wrong = text.wrong;
    if wrong == Wrong::Indented {
        let _ = text.word(b" ");
    }
    if wrong == Wrong::BlankLine && text.word(b"\n").is_some() {
        return Ok(());
    }
    if text.word(b"(group").is_some() {
        if wrong == Wrong::DepthBeforeForm && reading.open.len() == MOST_DEPTH {
            return Err(62);
        }
        let offset = text.offset().ok_or(61u32)?;
        if wrong == Wrong::ClosedGroupLine {
            let _ = text.word(b")");
        }
        text.end().ok_or(61u32)?;
        return reading.open(offset);
    }
    if text.word(b"(bin").is_some() {
        let most = MOST_BIN + i64::from(wrong == Wrong::LargerBin);
        let bin = text.number(most, wrong == Wrong::NegativeBin).ok_or(61u32)?;
        let offset = text.offset().ok_or(61u32)?;
        text.word(b")").and_then(|()| text.end()).ok_or(61u32)?;
        return reading.bin(bin, offset);
    }
    text.word(b")").and_then(|()| text.end()).ok_or(61u32)?;
    reading.close()
}

/// Reads all lines, up to the first that offends.
fn lines(text: &[u8], reading: &mut Reading) -> Result<(), u32> {
    let mut text = Text { rest: text, wrong: reading.wrong };
    while !text.rest.is_empty() {
        line(&mut text, reading)?;
    }
    if reading.open.is_empty() || reading.wrong == Wrong::EndWithGroupOpen { Ok(()) } else { Err(61) }
}

/// Whether any line is malformed, whatever else is wrong with an earlier one.
fn malformed_somewhere(text: &[u8]) -> bool {
    let mut text = Text { rest: text, wrong: Wrong::Nothing };
    let mut reading = Reading::new(usize::MAX, Wrong::Nothing);
    while !text.rest.is_empty() {
        if line(&mut text, &mut reading) == Err(61) {
            return true;
        }
    }
    false
}

/// Whether a text has as many groups opened as closed.
fn balanced(text: &[u8]) -> bool {
    let starting = |start: &[u8]| text.split(|byte| *byte == b'\n').filter(|each| each.starts_with(start)).count();
    starting(b"(group") == starting(b")")
}

/// Reads a plan.
pub fn read(text: &[u8], list: &mut [i64], fault: Fault) -> PlanRead {
    let wrong = fault.reader;
    let mut reading = Reading::new(room_of(list.len(), wrong), wrong);
    let mut done = lines(text, &mut reading);
    if done.is_err() && ((wrong == Wrong::MalformedFirst && malformed_somewhere(text)) || (wrong == Wrong::BalanceFirst && !balanced(text)))
    {
        done = Err(61);
    }
    if wrong == Wrong::Backwards {
        reading.entries.reverse();
    }
    let entries = reading.entries.len();
    if done.is_ok() || wrong == Wrong::WrittenBeforeRefusal {
        let end = list.len();
        reading.entries.concat().iter().zip(list.iter_mut()).for_each(|(number, place)| *place = *number);
        if wrong == Wrong::TailCleared {
            list[(ENTRY * entries).min(end)..].fill(0);
        }
    }
    match done {
        Ok(()) => PlanRead { refusal: 0, entries: entries as u64 },
        Err(refusal) => PlanRead { refusal, entries: if wrong == Wrong::EntriesOfRefused { entries as u64 } else { 0 } },
    }
}
