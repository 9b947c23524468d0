//! Profiles, cuts and schedules, as document 01 defines them.

use std::fmt;

#[derive(Clone, Copy, PartialEq, Eq)]
pub struct Range {
    pub floor: i64,
    pub ceiling: i64,
}

impl Range {
    pub fn holds(&self, value: i64) -> bool {
        self.floor <= value && value <= self.ceiling
    }

    pub fn width(&self) -> i64 {
        self.ceiling - self.floor
    }
}

impl fmt::Debug for Range {
    fn fmt(&self, out: &mut fmt::Formatter) -> fmt::Result {
        write!(out, "{}..{}", self.floor, self.ceiling)
    }
}

/// A range for each day and one for the total.
#[derive(Clone, PartialEq, Eq, Debug)]
pub struct Ranges {
    pub days: Vec<Range>,
    pub total: Range,
}

impl Ranges {
    pub fn floors(&self) -> Vec<i64> {
        self.days.iter().map(|day| day.floor).collect()
    }

    pub fn ceilings(&self) -> Vec<i64> {
        self.days.iter().map(|day| day.ceiling).collect()
    }
}

/// `rises[i]` is the least rise from day i to day i + 1; `first` is the first counted day.
#[derive(Clone, PartialEq, Eq, Debug)]
pub struct Profile {
    pub ranges: Ranges,
    pub rises: Vec<i64>,
    pub first: usize,
}

impl Profile {
    /// The total of a schedule: its sum from the first counted day on.
    pub fn counted_sum(&self, schedule: &[i64]) -> i64 {
        sum(&schedule[self.first..])
    }
}

#[derive(Clone, Copy, PartialEq, Eq, Debug)]
pub enum Kind {
    DayFloor,
    DayCeiling,
    TotalFloor,
    TotalCeiling,
}

/// The number of a kind is its place here.
pub const KINDS: [Kind; 4] = [
    Kind::DayFloor,
    Kind::DayCeiling,
    Kind::TotalFloor,
    Kind::TotalCeiling,
];

impl Kind {
    pub fn is_of_total(self) -> bool {
        matches!(self, Kind::TotalFloor | Kind::TotalCeiling)
    }
}

/// A well-formed cut.
#[derive(Clone, Copy, PartialEq, Eq, Debug)]
pub struct Cut {
    pub kind: Kind,
    pub day: usize,
    pub value: i64,
}

impl Cut {
    pub fn is_kept_by(&self, profile: &Profile, schedule: &[i64]) -> bool {
        match self.kind {
            Kind::DayFloor => schedule[self.day] >= self.value,
            Kind::DayCeiling => schedule[self.day] <= self.value,
            Kind::TotalFloor => profile.counted_sum(schedule) >= self.value,
            Kind::TotalCeiling => profile.counted_sum(schedule) <= self.value,
        }
    }
}

/// The first rule that a schedule breaks.
#[derive(Clone, Copy, PartialEq, Eq, Debug)]
pub enum Rule {
    Kept,
    Day(usize),
    Rise(usize),
    Total,
}

impl Rule {
    pub fn number(self) -> usize {
        match self {
            Rule::Kept => 0,
            Rule::Day(_) => 1,
            Rule::Rise(_) => 2,
            Rule::Total => 3,
        }
    }

    pub fn place(self) -> usize {
        match self {
            Rule::Day(place) | Rule::Rise(place) => place,
            Rule::Kept | Rule::Total => 0,
        }
    }
}

/// Days in order, then rises in order, then the total.
pub fn first_broken(ranges: &Ranges, profile: &Profile, schedule: &[i64]) -> Rule {
    for (day, range) in ranges.days.iter().enumerate() {
        if !range.holds(schedule[day]) {
            return Rule::Day(day);
        }
    }
    for (day, rise) in profile.rises.iter().enumerate() {
        if schedule[day + 1] < schedule[day] + rise {
            return Rule::Rise(day);
        }
    }
    if !ranges.total.holds(profile.counted_sum(schedule)) {
        return Rule::Total;
    }
    Rule::Kept
}

pub fn sum(values: &[i64]) -> i64 {
    values.iter().sum()
}
