//! Searches for the points that split a triangle that are wrong in one way each and stand in the call's place, to see that the comparison
//! finds them.

pub mod stitch;

use crate::plantable::plantable;

/// What is wrong with a search.
#[derive(Debug, Clone, Copy, PartialEq)]
pub enum Wrong {
    Nothing,
    // Which blocks are looked at.
    BlockPassedOver,
    LastLeafLeftOut,
    LastOfLeafLeftOut,
    // What a block holds.
    PointCopied,
    LastNotInBox,
    BoxOfFirstHalf,
    // The rule that passes a block over.
    UpperEndLeftOut,
    LowerEndLeftOut,
    EndOfParameterLeftOut,
    ParameterNotDivided,
    StartNotTakenAway,
    ProductEndsAsTheyCome,
    DifferenceOfLikeEnds,
    SquareOfLowEnd,
    OneAxisTwice,
    BeyondBelowSag,
    BeyondNotSquared,
    // The order in which points count.
    TiesAsSearched,
    TiesByKey,
    FoundByEachEdge,
    FirstOfKeyStands,
    // Which close points are dropped.
    CloseKept,
    CloseToTheOneBefore,
    CloseOnAnyEdge,
    CloserThanLess,
    LastOfCloseStands,
    FirstFoundOfCloseStands,
    // The limits of the result.
    LimitRefused,
    LimitOfTheBody,
    RoomBeforeLimit,
}

#[rustfmt::skip]
pub const ALL: &[Wrong] = &[
    Wrong::BlockPassedOver, Wrong::LastLeafLeftOut, Wrong::LastOfLeafLeftOut, Wrong::PointCopied, Wrong::LastNotInBox,
    Wrong::BoxOfFirstHalf, Wrong::UpperEndLeftOut, Wrong::LowerEndLeftOut, Wrong::EndOfParameterLeftOut, Wrong::ParameterNotDivided,
    Wrong::StartNotTakenAway, Wrong::ProductEndsAsTheyCome, Wrong::DifferenceOfLikeEnds, Wrong::SquareOfLowEnd, Wrong::OneAxisTwice,
    Wrong::BeyondBelowSag, Wrong::BeyondNotSquared, Wrong::TiesAsSearched, Wrong::TiesByKey, Wrong::FoundByEachEdge, Wrong::FirstOfKeyStands,
    Wrong::CloseKept, Wrong::CloseToTheOneBefore, Wrong::CloseOnAnyEdge, Wrong::CloserThanLess, Wrong::LastOfCloseStands,
    Wrong::FirstFoundOfCloseStands, Wrong::LimitRefused, Wrong::LimitOfTheBody, Wrong::RoomBeforeLimit,
];

plantable!(Wrong);
