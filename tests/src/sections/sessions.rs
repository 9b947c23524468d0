//! Sessions: a profile is opened, maybe after a damaged one, then cut, shown, written from and
//! inspected in a random order; at the end schedules are written, and the same valid cuts are made
//! in another order.

use crate::caller::{Caller, Held};
use crate::generate::{cuts, damage, length_near, profiles, schedules};
use crate::lent::{same_bytes, Checked};
use crate::oracle::calls::{
    bytes_of, CutCall, CutNumbers, InspectCall, OpenCall, ReadCall, WriteDayCall, WriteTotalCall,
};
use crate::oracle::profile::{Profile, Range};
use crate::oracle::SESSION_BYTES;
use crate::random::Random;

/// All lists of setpoints near a session's ranges are inspected if they are at most this many.
const MOST_LISTS: usize = 150;

struct Effort {
    operations: usize,
    /// Cuts that nearly always leave a schedule.
    gentle: bool,
    /// Schedules are written for so many days of the session.
    days_written: usize,
}

pub fn small_case(caller: &mut Caller, random: &mut Random, _: usize) -> Checked {
    let profile = profiles::small(random);
    every_first_day(caller, &profile)?;
    let effort = Effort {
        operations: 12,
        gentle: random.one_in(2),
        days_written: 6,
    };
    session(caller, random, &profile, &effort)
}

pub fn large_case(caller: &mut Caller, random: &mut Random, _: usize) -> Checked {
    let profile = profiles::large(random);
    let effort = Effort {
        operations: 40,
        gentle: true,
        days_written: 8,
    };
    session(caller, random, &profile, &effort)
}

fn session(
    caller: &mut Caller,
    random: &mut Random,
    profile: &Profile,
    effort: &Effort,
) -> Checked {
    if random.one_in(2) {
        let mut damaged = OpenCall::of(profile);
        damage::open(random, &mut damaged);
        caller.open(&damaged)?;
    }
    let Some(mut held) = caller.open(&OpenCall::of(profile))? else {
        return Ok(());
    };
    show(caller, random, &held)?;
    open_shown(caller, &held)?;
    for _ in 0..random.below(effort.operations) {
        operation(caller, random, &mut held, effort)?;
        show(caller, random, &held)?;
    }
    write_schedules(caller, random, &held, effort.days_written)?;
    inspect_box(caller, &held)?;
    other_order(caller, random, &held)
}

/// Opens the profile with every first counted day, and with the day past its last. Each session is
/// another one, also where the ranges are the same.
fn every_first_day(caller: &mut Caller, profile: &Profile) -> Checked {
    let mut opened: Vec<Vec<u8>> = Vec::new();
    for first in 0..=profile.ranges.days.len() {
        let opening = OpenCall::of(&profiles::counted_from(profile, first));
        let Some(held) = caller.open(&opening)? else {
            continue;
        };
        if opened.contains(&held.bytes) {
            return Err(format!(
                "{opening:?}difference: another first counted day gave the same session"
            ));
        }
        opened.push(held.bytes);
    }
    Ok(())
}

/// A session holds the tightened ranges and not those that were entered: opening what it shows
/// gives an equal one.
fn open_shown(caller: &mut Caller, held: &Held) -> Checked {
    let shown = Profile {
        ranges: held.oracle.shown().clone(),
        ..held.oracle.profile().clone()
    };
    let opening = OpenCall::of(&shown);
    let Some(again) = caller.open(&opening)? else {
        return Err(format!(
            "{opening:?}difference: refused, though a session shows it"
        ));
    };
    same_bytes("the session", &again.bytes, &held.bytes)
        .map_err(|difference| format!("{opening:?}difference: {difference}"))
}

fn operation(
    caller: &mut Caller,
    random: &mut Random,
    held: &mut Held,
    effort: &Effort,
) -> Checked {
    match random.below(10) {
        0..=4 => {
            let cut = cuts::cut(random, &held.oracle, effort.gentle);
            cut_with(caller, held, cut)
        }
        5 => {
            let mut call = proper_cut(held, cuts::cut(random, &held.oracle, effort.gentle));
            damage::cut_call(random, held.oracle.days(), &mut call);
            caller.cut(held, &call).map(|_| ())
        }
        6 => write_day(caller, random, held),
        7 => write_total(caller, random, held),
        8 => inspect(caller, random, held),
        _ => repeat_cut(caller, random, held),
    }
}

fn proper_cut(held: &Held, cut: CutNumbers) -> CutCall {
    CutCall {
        session_length: SESSION_BYTES,
        cut,
        changed_length: 2 * held.oracle.days(),
    }
}

fn cut_with(caller: &mut Caller, held: &mut Held, cut: CutNumbers) -> Checked {
    let call = proper_cut(held, cut);
    caller.cut(held, &call).map(|_| ())
}

/// A cut that the session has seen before.
fn repeat_cut(caller: &mut Caller, random: &mut Random, held: &mut Held) -> Checked {
    if held.oracle.cuts().is_empty() {
        return Ok(());
    }
    let cut = random.pick(held.oracle.cuts());
    cut_with(caller, held, CutNumbers::of(&cut))
}

fn show(caller: &mut Caller, random: &mut Random, held: &Held) -> Checked {
    let exact = 2 * held.oracle.days();
    let call = ReadCall {
        session_length: SESSION_BYTES,
        floors_length: exact,
        ceilings_length: exact,
    };
    caller.read(held, &call)?;
    let call = ReadCall {
        session_length: session_length(random),
        floors_length: length_near(random, exact),
        ceilings_length: length_near(random, exact),
    };
    caller.read(held, &call)
}

fn session_length(random: &mut Random) -> usize {
    if random.one_in(100) {
        damage::session_length(random)
    } else {
        SESSION_BYTES
    }
}

fn write_day(caller: &mut Caller, random: &mut Random, held: &Held) -> Checked {
    let days = held.oracle.days();
    let day = random.below(days);
    let past = [days, days + 1, 512, 65_536, 1 << 32, usize::MAX];
    let call = WriteDayCall {
        session_length: session_length(random),
        day: if random.one_in(8) {
            random.pick(&past)
        } else {
            day
        },
        value: schedules::value_to_write(random, held.oracle.shown().days[day]),
        schedule_length: length_near(random, 2 * days),
    };
    let written = caller.write_day(held, &call)?;
    inspect_written(caller, random, held, written)
}

fn write_total(caller: &mut Caller, random: &mut Random, held: &Held) -> Checked {
    let call = WriteTotalCall {
        session_length: session_length(random),
        value: schedules::value_to_write(random, held.oracle.shown().total),
        schedule_length: length_near(random, 2 * held.oracle.days()),
    };
    let written = caller.write_total(held, &call)?;
    inspect_written(caller, random, held, written)
}

fn inspect(caller: &mut Caller, random: &mut Random, held: &Held) -> Checked {
    let mut schedule = bytes_of(&schedules::schedule(random, &held.oracle));
    schedule.resize(length_near(random, schedule.len()), 0);
    let call = InspectCall {
        session_length: session_length(random),
        schedule,
    };
    caller.inspect(held, &call)
}

/// A written schedule, then the same one with changes.
fn inspect_written(
    caller: &mut Caller,
    random: &mut Random,
    held: &Held,
    written: Option<Vec<i64>>,
) -> Checked {
    let Some(schedule) = written else {
        return Ok(());
    };
    for setpoints in [&schedule, &schedules::changed_schedule(random, &schedule)] {
        let call = InspectCall {
            session_length: SESSION_BYTES,
            schedule: bytes_of(setpoints),
        };
        caller.inspect(held, &call)?;
    }
    Ok(())
}

/// Every list whose setpoints are within the shown ranges or one past them, where these are few.
fn inspect_box(caller: &mut Caller, held: &Held) -> Checked {
    let days = &held.oracle.shown().days;
    let choices = |day: &Range| (day.width() + 3) as usize;
    let lists = days.iter().map(choices).fold(1, usize::saturating_mul);
    if lists > MOST_LISTS {
        return Ok(());
    }
    for mut number in 0..lists {
        let mut setpoints = Vec::new();
        for day in days {
            setpoints.push(day.floor - 1 + (number % choices(day)) as i64);
            number /= choices(day);
        }
        let call = InspectCall {
            session_length: SESSION_BYTES,
            schedule: bytes_of(&setpoints),
        };
        caller.inspect(held, &call)?;
    }
    Ok(())
}

/// Schedules for the total and for some days, with values past both ends, at both ends and between
/// them.
fn write_schedules(caller: &mut Caller, random: &mut Random, held: &Held, days: usize) -> Checked {
    let shown = held.oracle.shown();
    let schedule_length = 2 * shown.days.len();
    for value in values_across(random, shown.total) {
        let call = WriteTotalCall {
            session_length: SESSION_BYTES,
            value,
            schedule_length,
        };
        let written = caller.write_total(held, &call)?;
        inspect_written(caller, random, held, written)?;
    }
    for turn in 0..days.min(shown.days.len()) {
        let day = if shown.days.len() <= days {
            turn
        } else {
            random.below(shown.days.len())
        };
        for value in values_across(random, shown.days[day]) {
            let call = WriteDayCall {
                session_length: SESSION_BYTES,
                day,
                value,
                schedule_length,
            };
            let written = caller.write_day(held, &call)?;
            inspect_written(caller, random, held, written)?;
        }
    }
    Ok(())
}

/// Every value of a narrow range and one past each end; of a wide range its ends, one past them,
/// and two between.
fn values_across(random: &mut Random, range: Range) -> Vec<i32> {
    let past = [range.floor - 1, range.ceiling + 1];
    let mut values: Vec<i64> = if range.width() <= 12 {
        (range.floor..=range.ceiling).collect()
    } else {
        let between = [(); 2].map(|_| random.between(range.floor, range.ceiling));
        [[range.floor, range.ceiling], between].concat()
    };
    values.extend(past);
    values.into_iter().map(|value| value as i32).collect()
}

/// The same valid cuts in another order end in an equal session.
fn other_order(caller: &mut Caller, random: &mut Random, held: &Held) -> Checked {
    let mut cuts = held.oracle.cuts().to_vec();
    random.shuffle(&mut cuts);
    let opening = OpenCall::of(held.oracle.profile());
    let Some(mut other) = caller.open(&opening)? else {
        return Err(format!("refused when opened again: {opening:?}"));
    };
    for cut in &cuts {
        cut_with(caller, &mut other, CutNumbers::of(cut))?;
    }
    let first_order = held.oracle.cuts();
    same_bytes("the session", &other.bytes, &held.bytes).map_err(|difference| {
        format!("{opening:?}cuts {first_order:?}\nother order {cuts:?}\ndifference: {difference}")
    })
}
