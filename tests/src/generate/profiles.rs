//! Profiles whose every value is within the bounds of an entry. Most are made around a schedule, so
//! that at least this one exists.

use std::ops::RangeInclusive;

use crate::oracle::bisection;
use crate::oracle::profile::{sum, Profile, Range, Ranges};
use crate::oracle::{MOST_DAYS, POINTS, RISES, TOTALS};
use crate::random::Random;

/// How far, at most, the bounds lie from a schedule.
struct Slack {
    day: i64,
    rise: i64,
    total: i64,
}

pub fn clip(value: i64, bounds: &RangeInclusive<i64>) -> i64 {
    value.clamp(*bounds.start(), *bounds.end())
}

/// The first counted day of so many: often 0, and each other one.
fn first(random: &mut Random, days: usize) -> usize {
    match random.below(6) {
        0..=1 => 0,
        2 => days - 1,
        3 => random.below(4).min(days - 1),
        _ => random.below(days),
    }
}

/// The same profile counted from another day on. The total's range is moved by the floors that count
/// no more, so that it limits the days as it did.
pub fn counted_from(profile: &Profile, first: usize) -> Profile {
    let mut moved = profile.clone();
    moved.first = first;
    let floors = profile.ranges.floors();
    let step = moved.counted_sum(&floors) - profile.counted_sum(&floors);
    let Range { floor, ceiling } = profile.ranges.total;
    moved.ranges.total = total(floor + step, ceiling + step);
    moved
}

/// One to six days with few setpoints each.
pub fn small(random: &mut Random) -> Profile {
    let days = random.between(1, 6) as usize;
    let most_width = [12, 7, 5, 4, 3, 2][days - 1];
    let base = random.pick(&[0, 0, 0, 1_500, -1_000, 3_994]);
    if random.one_in(2) {
        let schedule = small_schedule(random, days, base);
        let slack = Slack {
            day: most_width / 2,
            rise: 2,
            total: random.between(0, 5),
        };
        return around(random, &schedule, &slack);
    }
    free(random, days, base, most_width)
}

fn small_schedule(random: &mut Random, days: usize, base: i64) -> Vec<i64> {
    let mut schedule = vec![clip(base + random.between(0, 6), &POINTS)];
    while schedule.len() < days {
        let step = match random.below(12) {
            0 => random.between(-2_000, -1_997),
            1 => random.between(1_997, 2_003),
            _ => random.between(-3, 3),
        };
        schedule.push(clip(schedule[schedule.len() - 1] + step, &POINTS));
    }
    schedule
}

/// Bounds that need not have a schedule.
fn free(random: &mut Random, days: usize, base: i64, most_width: i64) -> Profile {
    let ranges: Vec<Range> = (0..days)
        .map(|_| {
            let floor = clip(base + random.between(0, 5), &POINTS);
            let ceiling = clip(floor + random.between(0, most_width), &POINTS);
            Range { floor, ceiling }
        })
        .collect();
    let first = first(random, days);
    let floors: i64 = ranges[first..].iter().map(|range| range.floor).sum();
    let ceilings: i64 = ranges[first..].iter().map(|range| range.ceiling).sum();
    let least = random.between(floors - 2, ceilings + 1);
    let most = least + random.between(0, 2 + (ceilings - floors) / 2);
    Profile {
        ranges: Ranges {
            days: ranges,
            total: total(least, most),
        },
        rises: (1..days).map(|_| random.between(-3, 2)).collect(),
        first,
    }
}

fn total(floor: i64, ceiling: i64) -> Range {
    Range {
        floor: clip(floor, &TOTALS),
        ceiling: clip(ceiling, &TOTALS),
    }
}

/// A profile that a given schedule keeps.
fn around(random: &mut Random, schedule: &[i64], slack: &Slack) -> Profile {
    let days = schedule
        .iter()
        .map(|&setpoint| Range {
            floor: clip(setpoint - random.between(0, slack.day), &POINTS),
            ceiling: clip(setpoint + random.between(0, slack.day), &POINTS),
        })
        .collect();
    let rises = schedule
        .windows(2)
        .map(|pair| clip(pair[1] - pair[0] - random.between(0, slack.rise), &RISES))
        .collect();
    let first = first(random, schedule.len());
    let counted = sum(&schedule[first..]);
    let least = counted - random.between(0, slack.total);
    let most = counted + random.between(0, slack.total);
    Profile {
        ranges: Ranges {
            days,
            total: total(least, most),
        },
        rises,
        first,
    }
}

#[derive(Clone, Copy)]
enum Shape {
    Wide,
    Tight,
    Level,
    Ramp,
    Falling,
    Sawtooth,
    /// Few days have more than one setpoint.
    Sparse,
    Extreme,
    Free,
}

const SHAPES: [Shape; 9] = [
    Shape::Wide,
    Shape::Tight,
    Shape::Level,
    Shape::Ramp,
    Shape::Falling,
    Shape::Sawtooth,
    Shape::Sparse,
    Shape::Extreme,
    Shape::Free,
];

/// Up to 512 days, in several shapes.
pub fn large(random: &mut Random) -> Profile {
    let most = MOST_DAYS as i64;
    let days = match random.below(4) {
        0 => most,
        1 => random.between(most - 2, most),
        2 => random.between(7, 60),
        _ => random.between(7, most),
    };
    let shape = random.pick(&SHAPES);
    let mut profile = match shape {
        Shape::Extreme => extreme(random, days as usize),
        Shape::Free => free_large(random, days as usize),
        _ => {
            let schedule = walk(random, days, shape);
            let slack = slack(random, days, shape);
            around(random, &schedule, &slack)
        }
    };
    if matches!(shape, Shape::Sparse) {
        widen_some(random, &mut profile);
    }
    if random.one_in(2) {
        limit_by_total(random, &mut profile);
    }
    profile
}

fn widen_some(random: &mut Random, profile: &mut Profile) {
    for _ in 0..random.between(1, 6) {
        let place = random.below(profile.ranges.days.len());
        let day = &mut profile.ranges.days[place];
        day.floor = clip(day.floor - random.between(0, 500), &POINTS);
        day.ceiling = clip(day.ceiling + random.between(0, 500), &POINTS);
    }
}

/// Puts the total's range near the least or the greatest sum that the days allow, so that it limits
/// them.
fn limit_by_total(random: &mut Random, profile: &mut Profile) {
    profile.ranges.total = total(*TOTALS.start(), *TOTALS.end());
    let Some(exact) = bisection::ranges(profile, &[]) else {
        return;
    };
    let Range { floor, ceiling } = exact.total;
    let far = random.pick(&[5, 500, 20_000, 100_000]).min(ceiling - floor);
    let near = random.between(0, far);
    profile.ranges.total = match random.below(4) {
        0 => total(floor, floor + near),
        1 => total(floor + near, floor + far),
        2 => total(ceiling - near, ceiling),
        _ => total(ceiling - far, ceiling - near),
    };
}

/// A schedule whose falls are at most 2,000.
fn walk(random: &mut Random, days: i64, shape: Shape) -> Vec<i64> {
    let mut schedule: Vec<i64> = Vec::new();
    let level = random.between(-900, 3_900);
    for day in 0..days {
        let before = schedule.last().copied().unwrap_or(level);
        let wish = match shape {
            Shape::Tight => before + random.between(-4, 4),
            Shape::Level => level,
            Shape::Ramp => -1_000 + 5_000 * day / days + random.between(0, 4),
            Shape::Falling => 4_000 - 5_000 * day / days,
            Shape::Sawtooth => [level, level + 2_000][(day % 2) as usize] + random.between(-5, 5),
            _ => random.between(-1_000, 4_000),
        };
        schedule.push(clip(wish.max(before - 2_000), &POINTS));
    }
    schedule
}

fn slack(random: &mut Random, days: i64, shape: Shape) -> Slack {
    let (day, rise) = match shape {
        Shape::Tight => (random.between(0, 8), random.between(0, 4)),
        Shape::Level => (random.between(1, 900), 0),
        Shape::Ramp => (random.between(10, 2_000), random.between(0, 9)),
        Shape::Falling => (random.between(10, 1_000), random.between(0, 2_000)),
        Shape::Sawtooth => (random.between(0, 400), random.between(0, 300)),
        Shape::Sparse => (0, random.between(0, 3_000)),
        _ => (6_000, random.between(0, 3_000)),
    };
    let total = random.pick(&[0, 1, 10, days, days * day / 8, 2_560_000]);
    Slack { day, rise, total }
}

/// Every point at an end of its bounds, the rises mostly, and the total's range often.
fn extreme(random: &mut Random, days: usize) -> Profile {
    let (low, high) = (*POINTS.start(), *POINTS.end());
    let (floor, ceiling) = random.pick(&[(low, high), (low, high), (low, low), (high, high)]);
    let rises: Vec<i64> = match random.below(4) {
        0 => vec![*RISES.start(); days - 1],
        1 => vec![0; days - 1],
        2 => (1..days).map(|day| [2_000, -2_000][day % 2]).collect(),
        _ => vec![*RISES.end(); days - 1],
    };
    let first = first(random, days);
    let counted = (days - first) as i64;
    let (least, most) = (floor * counted, ceiling * counted);
    let totals = [
        (*TOTALS.start(), *TOTALS.end()),
        (*TOTALS.start(), least),
        (most, *TOTALS.end()),
        (least + 1, most),
        ((least + most) / 2, (least + most) / 2),
    ];
    let (total_floor, total_ceiling) = random.pick(&totals);
    Profile {
        ranges: Ranges {
            days: vec![Range { floor, ceiling }; days],
            total: Range {
                floor: total_floor.min(total_ceiling),
                ceiling: total_ceiling,
            },
        },
        rises,
        first,
    }
}

/// Independent bounds and mostly falls; there need not be a schedule.
fn free_large(random: &mut Random, days: usize) -> Profile {
    let mut profile = free(random, days, 1_000, 3_000);
    let steepest = random.pick(&[-300, -20, 5]);
    for rise in &mut profile.rises {
        *rise = random.between(-2_000, steepest);
    }
    profile
}
