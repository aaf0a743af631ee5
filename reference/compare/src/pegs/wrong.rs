//! Lookups that are wrong in one way each and stand in the call's place, to see that the comparison finds them.

pub mod checks;
pub mod lookup;
mod rounding;

use crate::plantable::plantable;

/// What is wrong with a lookup.
#[derive(Debug, Clone, Copy, PartialEq)]
pub enum Wrong {
    Nothing,
    // A coordinate in micrometres.
    RoundedAfterPlace,
    HalvesToEven,
    HalvesToZero,
    HalvesUp,
    HalvesDown,
    Truncated,
    Floored,
    InSinglePrecision,
    NoFactor,
    CellsForMicrometres,
    WrapAt32,
    ClampedToRange,
    // Where a vertex stands.
    PlaceNotAdded,
    PlaceTakenAway,
    PlaceOfFirstRow,
    PlacesOfPatchesOnly,
    PlaceAxesExchanged,
    PlaceOf32Bits,
    SumClampedToRange,
    OutsideRangeIgnored,
    // What is near.
    MoreIsNear,
    LessIsNear,
    BallIsNear,
    OneAxisIsNear,
    ThirdAxisFree,
    OneSided,
    FarToo,
    // Which vertices count.
    UsedOnly,
    WithTrianglesOnly,
    FirstVertexOnly,
    LastVertexLeftOut,
    // What is nearest.
    LargestAxis,
    SumOfAxes,
    TwoAxes,
    WholeRoot,
    Farthest,
    // Which bins are the answer.
    LowestOnly,
    HighestOnly,
    FirstFoundOnly,
    LastFoundOnly,
    AllNear,
    FartherKept,
    Twice,
    InRowOrder,
    Descending,
    BinOfFirstRow,
    FaceForBin,
    RowForBin,
    BinZeroLost,
    LastBinLost,
    BinOf8Bits,
    // What is refused.
    NormalsUnchecked,
    ClampedUnchecked,
    ClampedAboveOnly,
    ClampedUsedOnly,
    ClampedFromTheLast,
    ClampedPastTheFirst,
    ClampedByMicrometres,
    ClampedNormalsToo,
    BinsUnchecked,
    IndicesUnchecked,
    FailedPlaceUnchecked,
    EmptyPlaceUnchecked,
    PegUnchecked,
    PlacesUnchecked,
    BehindPlacesChecked,
    LargerRange,
    SmallerRange,
    PlaceForEachRow,
    PlacesRoundedUp,
    PlacesExact,
    VertexRangeChecked,
    RoomForTiedRows,
    RoomForTiedVertices,
    RoomForAllRows,
    RoomForOneMore,
    EmptyListRefused,
    CutToRoom,
    // Which number is given.
    RoomBeforeRange,
    RangeBeforeFloats,
    RangeBeforeBody,
    RoomBeforeFloats,
    ClampedBeforeFloats,
    RangeBeforeClamped,
    RoomBeforeClamped,
    // What is written.
    WrittenBeforeRoom,
    CountOfRefused,
    CountOfRows,
    TailCleared,
    EndMarked,
}

#[rustfmt::skip]
pub const ALL: &[Wrong] = &[
    Wrong::RoundedAfterPlace, Wrong::HalvesToEven, Wrong::HalvesToZero, Wrong::HalvesUp, Wrong::HalvesDown, Wrong::Truncated,
    Wrong::Floored, Wrong::InSinglePrecision, Wrong::NoFactor, Wrong::CellsForMicrometres, Wrong::WrapAt32,
    Wrong::ClampedToRange, Wrong::PlaceNotAdded, Wrong::PlaceTakenAway, Wrong::PlaceOfFirstRow, Wrong::PlacesOfPatchesOnly,
    Wrong::PlaceAxesExchanged, Wrong::PlaceOf32Bits, Wrong::SumClampedToRange, Wrong::OutsideRangeIgnored, Wrong::MoreIsNear,
    Wrong::LessIsNear, Wrong::BallIsNear, Wrong::OneAxisIsNear, Wrong::ThirdAxisFree, Wrong::OneSided,
    Wrong::FarToo, Wrong::UsedOnly, Wrong::WithTrianglesOnly, Wrong::FirstVertexOnly, Wrong::LastVertexLeftOut, Wrong::LargestAxis,
    Wrong::SumOfAxes, Wrong::TwoAxes, Wrong::WholeRoot, Wrong::Farthest, Wrong::LowestOnly, Wrong::HighestOnly, Wrong::FirstFoundOnly,
    Wrong::LastFoundOnly, Wrong::AllNear, Wrong::FartherKept, Wrong::Twice, Wrong::InRowOrder, Wrong::Descending, Wrong::BinOfFirstRow,
    Wrong::FaceForBin, Wrong::RowForBin, Wrong::BinZeroLost, Wrong::LastBinLost, Wrong::BinOf8Bits, Wrong::NormalsUnchecked,
    Wrong::ClampedUnchecked, Wrong::ClampedAboveOnly, Wrong::ClampedUsedOnly, Wrong::ClampedFromTheLast, Wrong::ClampedPastTheFirst,
    Wrong::ClampedByMicrometres, Wrong::ClampedNormalsToo, Wrong::ClampedBeforeFloats, Wrong::RangeBeforeClamped, Wrong::RoomBeforeClamped,
    Wrong::BinsUnchecked, Wrong::IndicesUnchecked, Wrong::FailedPlaceUnchecked, Wrong::EmptyPlaceUnchecked, Wrong::PegUnchecked,
    Wrong::PlacesUnchecked, Wrong::BehindPlacesChecked, Wrong::LargerRange, Wrong::SmallerRange, Wrong::PlaceForEachRow,
    Wrong::PlacesRoundedUp, Wrong::PlacesExact, Wrong::VertexRangeChecked, Wrong::RoomForTiedRows, Wrong::RoomForTiedVertices,
    Wrong::RoomForAllRows, Wrong::RoomForOneMore, Wrong::EmptyListRefused, Wrong::CutToRoom, Wrong::RoomBeforeRange, Wrong::RangeBeforeFloats,
    Wrong::RangeBeforeBody, Wrong::RoomBeforeFloats, Wrong::WrittenBeforeRoom, Wrong::CountOfRefused, Wrong::CountOfRows,
    Wrong::TailCleared, Wrong::EndMarked,
];

plantable!(Wrong);
