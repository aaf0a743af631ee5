//! Answers with a closed that is made in another way than the model's and wrong in one way each, to see that the comparison finds them.

mod answers;

pub use answers::{Triangles, change};

use crate::plantable::plantable;

/// What is wrong with an answer.
#[derive(Debug, Clone, Copy, PartialEq)]
pub enum Wrong {
    Nothing,
    // Which points are one.
    OnlyX,
    OnlyY,
    OnlyZ,
    XApart,
    YApart,
    ZApart,
    FirstZeroOnly,
    AllZeroOnly,
    SignDropped,
    SubnormalsToo,
    SmallestToo,
    ByCell,
    FirstEndApart,
    SecondEndApart,
    // Which edges count.
    EqualEndsCounted,
    SliverSkipped,
    LastTriangleLeftOut,
    FailedRowsToo,
    // What the uses say.
    Inverted,
    AlwaysClosed,
    NeverClosed,
    CountsByBits,
    EitherCounts,
    BothCounts,
    OpenByBits,
    OverByBits,
    OverAllowed,
    OpenAllowed,
    EvenUses,
    OnceEachWay,
    NoEdgesOpen,
    // Where a −0.0 is looked for, before points are joined anew.
    LookedAtX,
    LookedAtY,
    LookedAtZ,
    LookedAtNormals,
    LookedAtFirst,
    FirstNotLookedAt,
    LastNotLookedAt,
    // What becomes of the counts.
    EdgesJoined,
    OpenJoined,
    OverJoined,
    CountsJoined,
}

#[rustfmt::skip]
pub const ALL: &[Wrong] = &[
    Wrong::OnlyX, Wrong::OnlyY, Wrong::OnlyZ, Wrong::XApart, Wrong::YApart, Wrong::ZApart, Wrong::FirstZeroOnly, Wrong::AllZeroOnly,
    Wrong::SignDropped, Wrong::SubnormalsToo, Wrong::SmallestToo, Wrong::ByCell, Wrong::FirstEndApart, Wrong::SecondEndApart,
    Wrong::EqualEndsCounted, Wrong::SliverSkipped, Wrong::LastTriangleLeftOut, Wrong::FailedRowsToo, Wrong::Inverted,
    Wrong::AlwaysClosed, Wrong::NeverClosed, Wrong::CountsByBits, Wrong::EitherCounts, Wrong::BothCounts, Wrong::OpenByBits,
    Wrong::OverByBits, Wrong::OverAllowed, Wrong::OpenAllowed, Wrong::EvenUses, Wrong::OnceEachWay, Wrong::NoEdgesOpen,
    Wrong::LookedAtX, Wrong::LookedAtY, Wrong::LookedAtZ, Wrong::LookedAtNormals, Wrong::LookedAtFirst, Wrong::FirstNotLookedAt,
    Wrong::LastNotLookedAt, Wrong::EdgesJoined, Wrong::OpenJoined, Wrong::OverJoined, Wrong::CountsJoined,
];

plantable!(Wrong);
