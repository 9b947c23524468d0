//! Values to write schedules for, and schedules to inspect.

use crate::oracle::profile::Range;
use crate::oracle::session::Session;
use crate::random::Random;

/// A value to write a schedule for: mostly in the range and often at its ends.
pub fn value_to_write(random: &mut Random, range: Range) -> i32 {
    let value = match random.below(12) {
        0 => range.floor - 1,
        1 => range.ceiling + 1,
        2 => random.pick(&[i32::MIN as i64, i32::MAX as i64, 65_536 + range.floor]),
        3..=5 => range.floor,
        6..=8 => range.ceiling,
        _ => random.between(range.floor, range.ceiling),
    };
    value as i32
}

/// A schedule to inspect, made of the session's ranges and changed on some days.
pub fn schedule(random: &mut Random, session: &Session) -> Vec<i64> {
    let shown = session.shown();
    let setpoints = match random.below(3) {
        0 => shown.floors(),
        1 => shown.ceilings(),
        _ => {
            let days = shown.days.iter();
            days.map(|day| random.between(day.floor, day.ceiling))
                .collect()
        }
    };
    changed_schedule(random, &setpoints)
}

/// The same schedule with up to three setpoints changed.
pub fn changed_schedule(random: &mut Random, schedule: &[i64]) -> Vec<i64> {
    let mut changed = schedule.to_vec();
    for _ in 0..random.below(4) {
        let day = random.below(changed.len());
        changed[day] = match random.below(5) {
            0 => (changed[day] + 1).min(i16::MAX as i64),
            1 => (changed[day] - 1).max(i16::MIN as i64),
            2 => random.pick(&[i16::MIN as i64, i16::MAX as i64, -1_001, 4_001]),
            3 => changed[random.below(schedule.len())],
            _ => random.between(i16::MIN as i64, i16::MAX as i64),
        };
    }
    changed
}
