//! Readers and writers of plans that are wrong in one way each and stand in the calls' place, to see that the comparison finds them.

pub mod reader;
pub mod writer;

use crate::plantable::plantable;

/// What is wrong with a reader or a writer.
#[derive(Debug, Clone, Copy, PartialEq)]
pub enum Wrong {
    Nothing,
    // The place of a bin.
    OwnOffsetOnly,
    InnermostGroupOnly,
    CloseDropsOutermost,
    CloseDropsAll,
    CloseDropsNone,
    AxesExchanged,
    ThirtyTwoBits,
    // What a line may be.
    MinusZero,
    PlusSign,
    LeadingZero,
    CarriageReturn,
    Indented,
    BlankLine,
    ClosedGroupLine,
    NoLastLineFeed,
    NumbersWrap,
    LargerOffset,
    SmallerOffset,
    LargerBin,
    NegativeBin,
    // Groups.
    SeventeenthGroup,
    FifteenGroups,
    CloseWithoutGroup,
    EndWithGroupOpen,
    GroupSumsHeld,
    // Which number is given.
    RoomBeforePlace,
    DepthBeforeForm,
    MalformedFirst,
    BalanceFirst,
    // Places and entries.
    LargerPlace,
    SmallerPlace,
    MoreEntries,
    FewerEntries,
    RoomRoundedUp,
    TwiceNamedOnce,
    Backwards,
    // What is written.
    WrittenBeforeRefusal,
    TailCleared,
    EntriesOfRefused,
    // Writers.
    BinsFirst,
    ShortFirst,
    RestIsRead,
    NoMinus,
    LastLineOpen,
    EndMarked,
    OneByteMore,
}

#[rustfmt::skip]
pub const READERS: &[Wrong] = &[
    Wrong::OwnOffsetOnly, Wrong::InnermostGroupOnly, Wrong::CloseDropsOutermost, Wrong::CloseDropsAll, Wrong::CloseDropsNone,
    Wrong::AxesExchanged, Wrong::ThirtyTwoBits, Wrong::MinusZero, Wrong::PlusSign, Wrong::LeadingZero, Wrong::CarriageReturn,
    Wrong::Indented, Wrong::BlankLine, Wrong::ClosedGroupLine, Wrong::NoLastLineFeed, Wrong::NumbersWrap, Wrong::LargerOffset,
    Wrong::SmallerOffset, Wrong::LargerBin, Wrong::NegativeBin, Wrong::SeventeenthGroup, Wrong::FifteenGroups,
    Wrong::CloseWithoutGroup, Wrong::EndWithGroupOpen, Wrong::GroupSumsHeld, Wrong::RoomBeforePlace, Wrong::DepthBeforeForm,
    Wrong::MalformedFirst, Wrong::BalanceFirst, Wrong::LargerPlace, Wrong::SmallerPlace, Wrong::MoreEntries, Wrong::FewerEntries,
    Wrong::RoomRoundedUp, Wrong::TwiceNamedOnce, Wrong::Backwards, Wrong::WrittenBeforeRefusal, Wrong::TailCleared,
    Wrong::EntriesOfRefused,
];

#[rustfmt::skip]
pub const WRITERS: &[Wrong] = &[
    Wrong::LargerBin, Wrong::NegativeBin, Wrong::LargerPlace, Wrong::SmallerPlace, Wrong::MoreEntries, Wrong::FewerEntries,
    Wrong::RoomBeforePlace, Wrong::BinsFirst, Wrong::ShortFirst, Wrong::RestIsRead, Wrong::NoMinus, Wrong::LastLineOpen,
    Wrong::EndMarked, Wrong::OneByteMore, Wrong::WrittenBeforeRefusal, Wrong::TailCleared, Wrong::EntriesOfRefused, Wrong::Backwards,
];

/// A wrong reader, with a writer that is right, or the other way round.
#[derive(Debug, Clone, Copy, PartialEq)]
pub struct Fault {
    pub reader: Wrong,
    pub writer: Wrong,
}

/// A reader and a writer without a fault, which nothing must be found wrong with.
pub const NONE: Fault = Fault { reader: Wrong::Nothing, writer: Wrong::Nothing };

/// Every wrong reader and writer.
pub fn all() -> impl Iterator<Item = Fault> {
    let readers = READERS.iter().map(|wrong| Fault { reader: *wrong, ..NONE });
    readers.chain(WRITERS.iter().map(|wrong| Fault { writer: *wrong, ..NONE }))
}

plantable!(Fault);
