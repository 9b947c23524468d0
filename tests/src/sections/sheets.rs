//! Sheets of cuts: a session gets one sheet after another, of no cut to 512, proper ones and
//! damaged, also once it is spent.

use crate::caller::{Caller, Held};
use crate::generate::{cuts, damage, profiles};
use crate::lent::Checked;
use crate::oracle::calls::{CutNumbers, OpenCall, ReadCall, SheetCall, WriteTotalCall};
use crate::oracle::profile::Profile;
use crate::oracle::{ANSWER_BYTES, CUT_BYTES, MOST_CUTS, SESSION_BYTES};
use crate::random::Random;

/// What is lent past a list's data.
const TAILS: [usize; 8] = [0, 0, 0, 1, 2, 3, 4, 100];

pub fn small_case(caller: &mut Caller, random: &mut Random, _: usize) -> Checked {
    let profile = profiles::small(random);
    sheets(caller, random, &profile, 12)
}

pub fn large_case(caller: &mut Caller, random: &mut Random, _: usize) -> Checked {
    let profile = profiles::large(random);
    sheets(caller, random, &profile, MOST_CUTS)
}

fn sheets(caller: &mut Caller, random: &mut Random, profile: &Profile, most: usize) -> Checked {
    let Some(mut held) = caller.open(&OpenCall::of(profile))? else {
        return Ok(());
    };
    for _ in 0..=random.below(3) {
        let mut call = sheet(caller, random, &held, most)?;
        caller.sheet(&mut held, &call)?;
        show(caller, &held)?;
        damage::sheet_call(random, held.oracle.days(), &mut call);
        caller.sheet(&mut held, &call)?;
    }
    show(caller, &held)
}

/// Few cuts, any number of them, or the most.
fn some_count(random: &mut Random, most: usize) -> usize {
    match random.below(6) {
        0..=2 => random.below(most.min(20) + 1),
        3..=4 => random.below(most + 1),
        _ => most,
    }
}

fn sheet(caller: &mut Caller, random: &mut Random, held: &Held, most: usize) -> Checked<SheetCall> {
    let count = some_count(random, most);
    let cuts = cut_list(caller, random, held, count)?;
    Ok(SheetCall {
        session_length: SESSION_BYTES,
        answers_length: ANSWER_BYTES * count + random.pick(&TAILS),
        changed_length: 2 * held.oracle.days() + random.pick(&TAILS),
        cuts,
    })
}

/// Cuts that one schedule keeps, so that the session is never spent, or cuts of the ranges that the
/// sheet starts from. In some lists some are damaged, in some one may spend the session.
fn cut_list(
    caller: &mut Caller,
    random: &mut Random,
    held: &Held,
    count: usize,
) -> Checked<Vec<u8>> {
    let kept = if random.one_in(3) {
        None
    } else {
        some_schedule(caller, random, held)?
    };
    let damaged = random.one_in(2);
    let mut bytes = Vec::with_capacity(CUT_BYTES * count);
    for _ in 0..count {
        let mut cut = some_cut(random, held, kept.as_deref());
        if random.one_in(2 * count) {
            cut = cuts::cut(random, &held.oracle, false);
        }
        if damaged && random.one_in(4) {
            damage::cut(random, held.oracle.days(), &mut cut);
        }
        bytes.extend_from_slice(&cut.bytes());
    }
    Ok(bytes)
}

fn some_cut(random: &mut Random, held: &Held, kept: Option<&[i64]>) -> CutNumbers {
    match kept {
        Some(schedule) => cuts::kept_cut(random, &held.oracle, schedule),
        None => cuts::cut(random, &held.oracle, true),
    }
}

/// A schedule that the library writes; none once the session is spent.
fn some_schedule(
    caller: &mut Caller,
    random: &mut Random,
    held: &Held,
) -> Checked<Option<Vec<i64>>> {
    let total = held.oracle.shown().total;
    let call = WriteTotalCall {
        session_length: SESSION_BYTES,
        value: random.between(total.floor, total.ceiling) as i32,
        schedule_length: 2 * held.oracle.days(),
    };
    caller.write_total(held, &call)
}

fn show(caller: &mut Caller, held: &Held) -> Checked {
    let length = 2 * held.oracle.days();
    let call = ReadCall {
        session_length: SESSION_BYTES,
        floors_length: length,
        ceilings_length: length,
    };
    caller.read(held, &call)
}
