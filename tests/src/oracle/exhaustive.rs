//! Exact ranges by search: all schedules of a small profile that keep every cut.

use super::profile::{Cut, Profile, Range, Ranges};

/// A profile is small if its ranges hold at most this many sequences of setpoints.
const MOST_SEQUENCES: i64 = 4_000;

pub fn is_small(profile: &Profile) -> bool {
    let mut sequences: i64 = 1;
    for day in &profile.ranges.days {
        sequences = sequences.saturating_mul(day.width() + 1);
    }
    sequences <= MOST_SEQUENCES
}

/// The lowest and highest values that the schedules which keep every cut take; `None` if there is
/// no such schedule.
pub fn ranges(profile: &Profile, cuts: &[Cut]) -> Option<Ranges> {
    let mut taken = None;
    visit(profile, &mut Vec::new(), &mut |schedule| {
        if cuts.iter().all(|cut| cut.is_kept_by(profile, schedule)) {
            include(&mut taken, schedule, profile.counted_sum(schedule));
        }
    });
    taken
}

/// Calls `found` with every schedule of the profile that begins with `setpoints`.
fn visit(profile: &Profile, setpoints: &mut Vec<i64>, found: &mut dyn FnMut(&[i64])) {
    let day = setpoints.len();
    if day == profile.ranges.days.len() {
        if profile.ranges.total.holds(profile.counted_sum(setpoints)) {
            found(setpoints);
        }
        return;
    }
    let range = profile.ranges.days[day];
    for setpoint in range.floor..=range.ceiling {
        if day == 0 || setpoint >= setpoints[day - 1] + profile.rises[day - 1] {
            setpoints.push(setpoint);
            visit(profile, setpoints, found);
            setpoints.pop();
        }
    }
}

fn include(taken: &mut Option<Ranges>, schedule: &[i64], total: i64) {
    let ranges = taken.get_or_insert_with(|| Ranges {
        days: schedule.iter().map(|&setpoint| only(setpoint)).collect(),
        total: only(total),
    });
    for (day, &setpoint) in schedule.iter().enumerate() {
        widen(&mut ranges.days[day], setpoint);
    }
    widen(&mut ranges.total, total);
}

fn only(value: i64) -> Range {
    Range {
        floor: value,
        ceiling: value,
    }
}

fn widen(range: &mut Range, value: i64) {
    range.floor = range.floor.min(value);
    range.ceiling = range.ceiling.max(value);
}
