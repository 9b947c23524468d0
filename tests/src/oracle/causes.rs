//! The causes of refusal. One number may have several causes; they are told apart here to count
//! that each one occurs.

#[derive(Clone, Copy, PartialEq, Eq, PartialOrd, Ord, Debug)]
pub enum Cause {
    SessionLength,
    DayCount,
    CutCount,
    ListLength,
    ShortAnswers,
    CutsLength,
    Point,
    Rise,
    Total,
    FloorAboveCeiling,
    FirstDay,
    UnknownKind,
    DayOfTotalCut,
    Day,
    CutPoint,
    CutTotal,
    Spent,
    NoSchedule,
    OutsideRange,
    FileUnderHeader,
    FileOffset,
    FileLength,
    LastRise,
    OutputLength,
}

impl Cause {
    pub fn number(self) -> u8 {
        match self {
            Cause::DayCount | Cause::CutCount => 1,
            Cause::SessionLength | Cause::ListLength | Cause::CutsLength | Cause::OutputLength => 2,
            Cause::Point | Cause::CutPoint => 3,
            Cause::Rise => 4,
            Cause::Total | Cause::CutTotal => 5,
            Cause::FloorAboveCeiling => 6,
            Cause::Day => 7,
            Cause::NoSchedule => 8,
            Cause::Spent => 9,
            Cause::OutsideRange => 10,
            Cause::FileUnderHeader | Cause::FileOffset | Cause::FileLength => 11,
            Cause::UnknownKind | Cause::DayOfTotalCut | Cause::LastRise => 12,
            Cause::FirstDay => 13,
            Cause::ShortAnswers => 14,
        }
    }
}

/// Refuses with a cause where it applies.
pub fn refuse_if(applies: bool, cause: Cause) -> Result<(), Cause> {
    if applies {
        Err(cause)
    } else {
        Ok(())
    }
}
