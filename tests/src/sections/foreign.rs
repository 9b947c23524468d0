//! Foreign session bytes: the call ends, stays within what it was lent, and leaves what it may only
//! read. Its answer is free.

use crate::caller::Caller;
use crate::entries::{self, ReadNumbers};
use crate::generate::{cuts, length_near, profiles};
use crate::lent::{Checked, Lent, LentNumber};
use crate::oracle::calls::{CutCall, CutNumbers, OpenCall};
use crate::oracle::{ANSWER_BYTES, CUT_BYTES, SESSION_BYTES};
use crate::random::Random;
use crate::tally::Entry;

/// Where a session's first counted day stands.
const FIRST_DAY: usize = SESSION_BYTES - 2;

/// Strings made from one true session.
const STRINGS: usize = 100;

pub fn case(caller: &mut Caller, random: &mut Random, _: usize) -> Checked {
    let (session, days) = true_session(caller, random)?;
    for string in 0..STRINGS {
        let bytes = foreign(random, string, &session);
        try_string(caller, random, &bytes, days)
            .map_err(|d| format!("string {string}, bytes {bytes:?}\ndifference: {d}"))?;
    }
    Ok(())
}

/// The bytes of a session with some cuts, and its days.
fn true_session(caller: &mut Caller, random: &mut Random) -> Checked<(Vec<u8>, usize)> {
    loop {
        let profile = if random.one_in(2) {
            profiles::small(random)
        } else {
            profiles::large(random)
        };
        if let Some(mut held) = caller.open(&OpenCall::of(&profile))? {
            let days = held.oracle.days();
            for _ in 0..random.below(4) {
                let call = CutCall {
                    session_length: SESSION_BYTES,
                    cut: cuts::cut(random, &held.oracle, true),
                    changed_length: 2 * days,
                };
                caller.cut(&mut held, &call)?;
            }
            return Ok((held.bytes, days));
        }
    }
}

/// Random bytes; random bytes after the beginning of a true session; a true session with some bits
/// turned; one with the same two bytes again and again. In some, any number is the first counted day.
fn foreign(random: &mut Random, string: usize, session: &[u8]) -> Vec<u8> {
    let mut bytes = session.to_vec();
    match string % 4 {
        0 => bytes = random.bytes(SESSION_BYTES),
        1 => {
            let kept = [2, 4, 8, 16, 20, 32, 1_044, 2_068][random.below(8)];
            let rest = random.bytes(SESSION_BYTES - kept);
            bytes[kept..].copy_from_slice(&rest);
        }
        2 => {
            for _ in 0..1 + random.below(8) {
                let end = random.pick(&[20, 64, SESSION_BYTES]);
                bytes[random.below(end)] ^= 1 << random.below(8);
            }
        }
        _ => {
            let pair: u16 = random.pick(&[0, 1, 999, 5_000, 0x7FFF, 0x8000, 0xFFFF]);
            let from = random.pick(&[0, 2, 4, 20, 2_068, 3_092]);
            for place in (from..SESSION_BYTES).step_by(2) {
                bytes[place..place + 2].copy_from_slice(&pair.to_le_bytes());
            }
        }
    }
    if random.one_in(3) {
        let first: u16 = random.pick(&[0, 1, 5, 511, 512, 513, 0x7FFF, 0xFFFF]);
        bytes[FIRST_DAY..].copy_from_slice(&first.to_le_bytes());
    }
    bytes
}

/// Hands the bytes to every entry that takes a session; the bytes that a cut leaves go to showing
/// and writing once more.
fn try_string(caller: &mut Caller, random: &mut Random, bytes: &[u8], days: usize) -> Checked {
    let mut session = caller.lend(bytes);
    read(caller, random, &mut session, days)?;
    write_day(caller, random, &mut session, days)?;
    write_total(caller, random, &mut session, days)?;
    inspect(caller, random, &mut session, days)?;
    let after = cut(caller, random, &mut session, days)?;
    let mut session = caller.lend(&after);
    read(caller, random, &mut session, days)?;
    write_day(caller, random, &mut session, days)?;
    cut_sheet(caller, random, bytes, days)
}

/// The days that a session may turn out to have are not known here.
fn list_length(random: &mut Random, days: usize) -> usize {
    let days = random.pick(&[days, days, 512, 512, 1]);
    length_near(random, 2 * days)
}

fn any_day(random: &mut Random, days: usize) -> usize {
    match random.below(8) {
        0 => random.next() as usize,
        1 => random.below(600),
        _ => random.below(days),
    }
}

fn any_value(random: &mut Random) -> i32 {
    match random.below(4) {
        0 => random.next() as i32,
        1 => random.between(-512_000, 2_048_000) as i32,
        _ => random.between(-1_000, 4_000) as i32,
    }
}

fn read(caller: &mut Caller, random: &mut Random, session: &mut Lent, days: usize) -> Checked {
    let mut floors = caller.lend_room(list_length(random, days));
    let mut ceilings = caller.lend_room(list_length(random, days));
    let mut numbers = ReadNumbers {
        total_floor: LentNumber::new(),
        total_ceiling: LentNumber::new(),
        spent: LentNumber::new(),
    };
    entries::read(session, &mut floors, &mut ceilings, &mut numbers);
    caller.tally.foreign(Entry::Read);
    session.holds("session at read", &[])?;
    floors.guarded("floors at read")?;
    ceilings.guarded("ceilings at read")?;
    numbers.total_floor.guarded("total_floor at read")?;
    numbers.total_ceiling.guarded("total_ceiling at read")?;
    numbers.spent.guarded("spent at read")
}

fn write_day(caller: &mut Caller, random: &mut Random, session: &mut Lent, days: usize) -> Checked {
    let mut schedule = caller.lend_room(list_length(random, days));
    let (day, value) = (any_day(random, days), any_value(random));
    entries::write_day(session, day, value, &mut schedule);
    caller.tally.foreign(Entry::WriteDay);
    session.holds("session at write_day", &[])?;
    schedule.guarded("schedule at write_day")
}

fn write_total(
    caller: &mut Caller,
    random: &mut Random,
    session: &mut Lent,
    days: usize,
) -> Checked {
    let mut schedule = caller.lend_room(list_length(random, days));
    entries::write_total(session, any_value(random), &mut schedule);
    caller.tally.foreign(Entry::WriteTotal);
    session.holds("session at write_total", &[])?;
    schedule.guarded("schedule at write_total")
}

fn inspect(caller: &mut Caller, random: &mut Random, session: &mut Lent, days: usize) -> Checked {
    let mut schedule = caller.lend_room(list_length(random, days));
    let (mut rule, mut place) = (LentNumber::new(), LentNumber::new());
    entries::inspect(session, &mut schedule, &mut rule, &mut place);
    caller.tally.foreign(Entry::Inspect);
    session.holds("session at inspect", &[])?;
    schedule.holds("schedule at inspect", &[])?;
    rule.guarded("rule at inspect")?;
    place.guarded("place at inspect")
}

/// Few cuts, at times up to 512.
fn cut_list(random: &mut Random, days: usize) -> Vec<u8> {
    let most = if random.one_in(50) { 513 } else { 6 };
    let mut list = Vec::new();
    for _ in 0..random.below(most) {
        let cut = CutNumbers {
            kind: random.below(5),
            day: any_day(random, days) * random.below(2),
            value: any_value(random),
        };
        list.extend_from_slice(&cut.bytes());
    }
    list
}

fn cut_sheet(caller: &mut Caller, random: &mut Random, bytes: &[u8], days: usize) -> Checked {
    let mut list = cut_list(random, days);
    let answers_length = list.len() / CUT_BYTES * ANSWER_BYTES;
    list.resize(length_near(random, list.len()), 0);
    let mut session = caller.lend(bytes);
    let mut cuts = caller.lend(&list);
    let mut answers = caller.lend_room(length_near(random, answers_length));
    let mut changed = caller.lend_room(list_length(random, days));
    let mut number = LentNumber::new();
    entries::cut_sheet(
        &mut session,
        &mut cuts,
        &mut answers,
        &mut changed,
        &mut number,
    );
    caller.tally.foreign(Entry::CutSheet);
    session.guarded("session at cut_sheet")?;
    cuts.holds("cuts at cut_sheet", &[])?;
    answers.guarded("answers at cut_sheet")?;
    changed.guarded("changed at cut_sheet")?;
    number.guarded("changed_days at cut_sheet")
}

/// The bytes that the cut leaves.
fn cut(
    caller: &mut Caller,
    random: &mut Random,
    session: &mut Lent,
    days: usize,
) -> Checked<Vec<u8>> {
    let mut changed = caller.lend_room(list_length(random, days));
    let mut count = LentNumber::new();
    let kind = random.pick(&[0, 1, 2, 3, 0, 1, 2, 3, 4, usize::MAX]);
    let total_day = kind >= 2 && !random.one_in(8);
    let day = if total_day { 0 } else { any_day(random, days) };
    let value = any_value(random);
    entries::cut(session, kind, day, value, &mut changed, &mut count);
    caller.tally.foreign(Entry::Cut);
    session.guarded("session at cut")?;
    changed.guarded("changed at cut")?;
    count.guarded("changed_days at cut")?;
    Ok(session.data().to_vec())
}
