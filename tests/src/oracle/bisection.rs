//! Exact ranges of a profile of any size, by bisection on the value of each day.
//!
//! Subtracting from each day the rises before it makes every rise 0, so that schedules become
//! sequences that never fall. Once floors are carried forward and ceilings backward, the sequences
//! through value v on day i have as least sum that of the floors before i, v, and the larger of v
//! and the floor on each later day; as greatest sum that of the smaller of v and the ceiling on
//! each earlier day, v, and the ceilings after i; each over the counted days among these. Every sum
//! between is reached, since one setpoint can be raised by 1 at a time. So v has a schedule exactly
//! if its least sum is at most the total's ceiling and its greatest at least the total's floor, and
//! neither sum falls as v grows.

use super::profile::{Cut, Kind, Profile, Range, Ranges};

/// The lowest and highest values that the schedules which keep every cut take; `None` if there is
/// no such schedule.
pub fn ranges(profile: &Profile, cuts: &[Cut]) -> Option<Ranges> {
    let bounds = clipped(&profile.ranges, cuts);
    let shifts = shifts(&profile.rises);
    let shift = profile.counted_sum(&shifts);
    let moved = Range {
        floor: bounds.total.floor - shift,
        ceiling: bounds.total.ceiling - shift,
    };
    let chain = Chain::new(&bounds, &shifts, profile.first)?;
    let total = chain.total(moved)?;
    let shift_back = |(day, &shift): (usize, &i64)| {
        let range = chain.day(day, total);
        Range {
            floor: range.floor + shift,
            ceiling: range.ceiling + shift,
        }
    };
    Some(Ranges {
        days: shifts.iter().enumerate().map(shift_back).collect(),
        total: Range {
            floor: total.floor + shift,
            ceiling: total.ceiling + shift,
        },
    })
}

/// The bounds with each cut taken as a bound of its own day or of the total.
fn clipped(ranges: &Ranges, cuts: &[Cut]) -> Ranges {
    let mut bounds = ranges.clone();
    for cut in cuts {
        let day = &mut bounds.days[cut.day];
        let total = &mut bounds.total;
        match cut.kind {
            Kind::DayFloor => day.floor = day.floor.max(cut.value),
            Kind::DayCeiling => day.ceiling = day.ceiling.min(cut.value),
            Kind::TotalFloor => total.floor = total.floor.max(cut.value),
            Kind::TotalCeiling => total.ceiling = total.ceiling.min(cut.value),
        }
    }
    bounds
}

/// For each day the sum of the rises before it.
fn shifts(rises: &[i64]) -> Vec<i64> {
    let mut shifts = vec![0];
    for rise in rises {
        shifts.push(shifts[shifts.len() - 1] + rise);
    }
    shifts
}

/// The bounds of sequences that never fall: carried, so that neither floors nor ceilings fall.
/// `floors_before[i]` is the sum of the floors of the counted days before day i.
struct Chain {
    first: usize,
    floors: Vec<i64>,
    ceilings: Vec<i64>,
    floors_before: Vec<i64>,
    ceilings_before: Vec<i64>,
}

impl Chain {
    /// `None` if a floor is above its ceiling.
    fn new(bounds: &Ranges, shifts: &[i64], first: usize) -> Option<Chain> {
        let shifted = |values: Vec<i64>| -> Vec<i64> {
            let pairs = values.iter().zip(shifts);
            pairs.map(|(value, shift)| value - shift).collect()
        };
        let mut floors = shifted(bounds.floors());
        let mut ceilings = shifted(bounds.ceilings());
        for day in 1..floors.len() {
            floors[day] = floors[day].max(floors[day - 1]);
        }
        for day in (1..ceilings.len()).rev() {
            ceilings[day - 1] = ceilings[day - 1].min(ceilings[day]);
        }
        if floors.iter().zip(&ceilings).any(|(low, high)| low > high) {
            return None;
        }
        Some(Chain {
            floors_before: sums_before(&floors, first),
            ceilings_before: sums_before(&ceilings, first),
            first,
            floors,
            ceilings,
        })
    }

    fn days(&self) -> usize {
        self.floors.len()
    }

    /// How many of the days from one on and before another count.
    fn counted(&self, from: usize, to: usize) -> i64 {
        (to.max(self.first) - from.max(self.first)) as i64
    }

    /// The sums that sequences have within the total's bounds; `None` if there are none.
    fn total(&self, bounds: Range) -> Option<Range> {
        let floor = bounds.floor.max(self.floors_before[self.days()]);
        let ceiling = bounds.ceiling.min(self.ceilings_before[self.days()]);
        (floor <= ceiling).then_some(Range { floor, ceiling })
    }

    /// The values that a day takes in sequences whose sum is in the total's range.
    fn day(&self, day: usize, total: Range) -> Range {
        let (low, high) = (self.floors[day], self.ceilings[day]);
        let too_low = |value| self.greatest_sum(day, value) < total.floor;
        let small_enough = |value| self.least_sum(day, value) <= total.ceiling;
        Range {
            floor: low + count_from(low, high, too_low),
            ceiling: low + count_from(low, high, small_enough) - 1,
        }
    }

    /// The least sum of a sequence that has this value on this day.
    fn least_sum(&self, day: usize, value: i64) -> i64 {
        let lower = self.floors[day + 1..].partition_point(|&floor| floor < value);
        let higher_from = day + 1 + lower;
        let higher = self.floors_before[self.days()] - self.floors_before[higher_from];
        self.floors_before[day] + value * self.counted(day, higher_from) + higher
    }

    /// The greatest sum of a sequence that has this value on this day.
    fn greatest_sum(&self, day: usize, value: i64) -> i64 {
        let lower = self.ceilings[..day].partition_point(|&ceiling| ceiling < value);
        let after = self.ceilings_before[self.days()] - self.ceilings_before[day + 1];
        self.ceilings_before[lower] + value * self.counted(lower, day + 1) + after
    }
}

fn sums_before(values: &[i64], first: usize) -> Vec<i64> {
    let mut sums = vec![0];
    for (day, value) in values.iter().enumerate() {
        let counted = if day < first { 0 } else { *value };
        sums.push(sums[day] + counted);
    }
    sums
}

/// How many values from `low` to `high` have a property that holds up to some value and for none
/// above it.
fn count_from(low: i64, high: i64, holds: impl Fn(i64) -> bool) -> i64 {
    let (mut holding, mut failing) = (low - 1, high + 1);
    while failing - holding > 1 {
        let middle = holding + (failing - holding) / 2;
        if holds(middle) {
            holding = middle;
        } else {
            failing = middle;
        }
    }
    holding - low + 1
}
