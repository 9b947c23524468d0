//! Well-formed cuts for a session.

use std::ops::RangeInclusive;

use super::profiles::clip;
use crate::oracle::calls::CutNumbers;
use crate::oracle::profile::{Kind, Range, KINDS};
use crate::oracle::session::Session;
use crate::oracle::{POINTS, TOTALS};
use crate::random::Random;

/// `gentle` cuts nearly always leave a schedule.
pub fn cut(random: &mut Random, session: &Session, gentle: bool) -> CutNumbers {
    let kind = random.pick(&KINDS);
    let shown = session.shown();
    let (day, range, bounds) = if kind.is_of_total() {
        (0, shown.total, TOTALS)
    } else {
        let day = random.below(session.days());
        (day, shown.days[day], POINTS)
    };
    let from_floor = matches!(kind, Kind::DayFloor | Kind::TotalFloor);
    let value = if gentle && !random.one_in(30) {
        gentle_value(random, range, from_floor)
    } else {
        any_value(random, range, &bounds)
    };
    CutNumbers {
        kind: kind as usize,
        day,
        value: clip(value, &bounds) as i32,
    }
}

/// A cut that a schedule of the session keeps.
pub fn kept_cut(random: &mut Random, session: &Session, schedule: &[i64]) -> CutNumbers {
    let kind = random.pick(&KINDS);
    let shown = session.shown();
    let (day, range, setpoint) = if kind.is_of_total() {
        (0, shown.total, session.profile().counted_sum(schedule))
    } else {
        let day = random.below(session.days());
        (day, shown.days[day], schedule[day])
    };
    let part = random.pick(&[1, 4, 16, 64]);
    let value = match kind {
        Kind::DayFloor | Kind::TotalFloor => {
            range.floor + random.between(0, (setpoint - range.floor) / part)
        }
        Kind::DayCeiling | Kind::TotalCeiling => {
            range.ceiling - random.between(0, (range.ceiling - setpoint) / part)
        }
    };
    CutNumbers {
        kind: kind as usize,
        day,
        value: value as i32,
    }
}

/// A cut by at most an eighth of the range, or by 1, or of nearly all of it, or one that is looser
/// than the range.
fn gentle_value(random: &mut Random, range: Range, from_floor: bool) -> i64 {
    let width = range.width();
    let step = match random.below(10) {
        0 => -random.between(0, 3),
        1 => width.min(1),
        2 => width - random.pick(&[0, 5, 500, 20_000]).min(width),
        _ => random.between(0, width / 8),
    };
    if from_floor {
        range.floor + step
    } else {
        range.ceiling - step
    }
}

fn any_value(random: &mut Random, range: Range, bounds: &RangeInclusive<i64>) -> i64 {
    match random.below(8) {
        0 => range.floor - 1,
        1 => range.floor,
        2 => range.ceiling,
        3 => range.ceiling + 1,
        4 => random.pick(&[*bounds.start(), *bounds.end()]),
        5 => range.floor - random.between(0, 5),
        _ => random.between(range.floor, range.ceiling),
    }
}
