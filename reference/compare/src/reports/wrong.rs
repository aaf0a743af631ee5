//! Reports that are wrong in one way each and stand in the call's place, to see that the comparison finds them.

mod audit;
pub mod report;
mod sums;

use crate::plantable::plantable;

/// What is wrong with a report.
#[derive(Debug, Clone, Copy, PartialEq)]
pub enum Wrong {
    Nothing,
    // Which uses are held to which.
    PreviousUse,
    EveryEarlierUse,
    SecondUseOnly,
    OppositeUses,
    AnyUse,
    ThirdSideLeftOut,
    LastTriangleLeftOut,
    FirstRowLeftOut,
    EqualEndsCounted,
    SliversLeftOut,
    // Which edges are one.
    ShellsApart,
    BinsApart,
    RowsApart,
    EscapingLeftOut,
    ByBits,
    ByCell,
    // What is counted.
    OneFaceOnce,
    OneFaceNot,
    OneRowNot,
    LaterOnly,
    FirstOnly,
    ByRow,
    FaceOf16Bits,
    CountHalved,
    CountOf16Bits,
    // In which order it is listed.
    TiesDescending,
    TiesAsFound,
    TiesSigned,
    ByNumber,
    LowestFirst,
    TwelveOnly,
    CountBeforeFace,
    UncountedToo,
    // Where it is written.
    WrittenAtZero,
    WrittenAtListedNumbers,
    WrittenOneBehind,
    TailCleared,
    EndMarked,
    FrontCleared,
    CutToRoom,
    WrittenThenRefused,
    // What is summed.
    NotSummed(usize),
    BodiesNotCounted,
    BodyOfNoRowsNotCounted,
    BodyOfNoAcceptedNotCounted,
    UnusedVerticesLeftOut,
    VerticesOfAllRows,
    TrianglesOfAllRows,
    IndicesForTriangles,
    FacesByNumber,
    FailedAsAccepted,
    EmptyAsAccepted,
    EscapedAsAccepted,
    EscapedBeforeEmpty,
    EscapedOfUsedOnly,
    EscapedAtTheDiagonal,
    UpstreamAsEmpty,
    EmptyAsUpstream,
    EscapedAsUpstream,
    ListedInNumbers,
    // The share.
    ShareNotReduced,
    ShareReducedByTwos,
    ShareOfBody,
    ShareOfGivenPage,
    ShareOfFailed,
    ShareToFailed,
    ShareOfNoFacesZero,
    ShareOfNoFacesNothing,
    ShareOfNoneNotReduced,
    // What is refused.
    MostBodiesTaken,
    LastBodyRefused,
    BodiesOf32Bits,
    CountUnchecked(usize),
    CountOf32Bits,
    LimitRefused,
    LimitOfMostBodies,
    LimitOfNextBody,
    LimitOfOneBody,
    EmptyPageUnchecked,
    SumsChecked,
    KindsHeldToFailed,
    RoomOnlyForNew,
    RoomOfNumbers,
    RoomRoundedUp,
    RoomForAllRows,
    RoomWithoutListed,
    RoomForOneMore,
    NormalsUnchecked,
    BinsUnchecked,
    ClampedUnchecked,
    WorkUnchecked,
    // Which number is given.
    RoomBeforePage,
    PageBeforeBody,
    PageBeforeClamped,
    PageBeforeWork,
    RoomBeforeWork,
    // What is left.
    WorkKept,
    WorkKeptOnPage,
    WorkKeptOnRoom,
    WorkLastKept,
    WorkAllCleared,
    WorkClearedBeforePage,
    PageOfRefused,
    ShareOfRefused,
}

#[rustfmt::skip]
const ALONE: &[Wrong] = &[
    Wrong::PreviousUse, Wrong::EveryEarlierUse, Wrong::SecondUseOnly, Wrong::OppositeUses, Wrong::AnyUse, Wrong::ThirdSideLeftOut,
    Wrong::LastTriangleLeftOut, Wrong::FirstRowLeftOut, Wrong::EqualEndsCounted, Wrong::SliversLeftOut, Wrong::ShellsApart, Wrong::BinsApart, Wrong::RowsApart,
    Wrong::EscapingLeftOut, Wrong::ByBits, Wrong::ByCell, Wrong::OneFaceOnce, Wrong::OneFaceNot, Wrong::OneRowNot, Wrong::LaterOnly,
    Wrong::FirstOnly, Wrong::ByRow, Wrong::FaceOf16Bits, Wrong::CountHalved, Wrong::CountOf16Bits, Wrong::TiesDescending, Wrong::TiesAsFound,
    Wrong::TiesSigned, Wrong::ByNumber, Wrong::LowestFirst, Wrong::TwelveOnly, Wrong::CountBeforeFace, Wrong::UncountedToo,
    Wrong::WrittenAtZero, Wrong::WrittenAtListedNumbers, Wrong::WrittenOneBehind, Wrong::TailCleared, Wrong::EndMarked, Wrong::FrontCleared,
    Wrong::CutToRoom, Wrong::WrittenThenRefused, Wrong::BodiesNotCounted, Wrong::BodyOfNoRowsNotCounted, Wrong::BodyOfNoAcceptedNotCounted,
    Wrong::UnusedVerticesLeftOut, Wrong::VerticesOfAllRows, Wrong::TrianglesOfAllRows, Wrong::IndicesForTriangles, Wrong::FacesByNumber,
    Wrong::FailedAsAccepted, Wrong::EmptyAsAccepted, Wrong::EscapedAsAccepted, Wrong::EscapedBeforeEmpty, Wrong::EscapedOfUsedOnly,
    Wrong::EscapedAtTheDiagonal, Wrong::UpstreamAsEmpty, Wrong::EmptyAsUpstream, Wrong::EscapedAsUpstream, Wrong::ListedInNumbers,
    Wrong::ShareNotReduced, Wrong::ShareReducedByTwos, Wrong::ShareOfBody, Wrong::ShareOfGivenPage, Wrong::ShareOfFailed,
    Wrong::ShareToFailed, Wrong::ShareOfNoFacesZero, Wrong::ShareOfNoFacesNothing, Wrong::ShareOfNoneNotReduced, Wrong::MostBodiesTaken,
    Wrong::LastBodyRefused, Wrong::BodiesOf32Bits, Wrong::CountOf32Bits, Wrong::LimitRefused, Wrong::LimitOfMostBodies, Wrong::LimitOfNextBody,
    Wrong::LimitOfOneBody, Wrong::EmptyPageUnchecked, Wrong::SumsChecked, Wrong::KindsHeldToFailed, Wrong::RoomOnlyForNew,
    Wrong::RoomOfNumbers, Wrong::RoomRoundedUp, Wrong::RoomForAllRows, Wrong::RoomWithoutListed, Wrong::RoomForOneMore,
    Wrong::NormalsUnchecked, Wrong::BinsUnchecked, Wrong::ClampedUnchecked, Wrong::WorkUnchecked, Wrong::RoomBeforePage, Wrong::PageBeforeBody,
    Wrong::PageBeforeClamped, Wrong::PageBeforeWork, Wrong::RoomBeforeWork, Wrong::WorkKept, Wrong::WorkKeptOnPage, Wrong::WorkKeptOnRoom,
    Wrong::WorkLastKept, Wrong::WorkAllCleared, Wrong::WorkClearedBeforePage, Wrong::PageOfRefused, Wrong::ShareOfRefused,
];

/// Every fault, those of each of the eight counts too.
pub fn all() -> impl Iterator<Item = Wrong> {
    ALONE.iter().copied().chain((0..8).flat_map(|k| [Wrong::NotSummed(k), Wrong::CountUnchecked(k)]))
}

plantable!(Wrong);
