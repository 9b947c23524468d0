//! Every list of every entry, and every session, at lengths around the right one.

use crate::caller::{Caller, Held};
use crate::generate::{cuts, profiles};
use crate::lent::Checked;
use crate::oracle::calls::{
    bytes_of, CutCall, CutNumbers, InspectCall, OpenCall, ProfileLists, ReadCall, ReadFileCall,
    SheetCall, WriteDayCall, WriteFileCall, WriteTotalCall,
};
use crate::oracle::file;
use crate::oracle::profile::Kind;
use crate::oracle::{ANSWER_BYTES, CUT_BYTES, MOST_CUTS, SESSION_BYTES};
use crate::random::Random;

/// A session, the same session spent, and its file with cuts: each entry with each of its lists at
/// each length.
pub fn case(caller: &mut Caller, random: &mut Random, case: usize) -> Checked {
    let (held, spent) = sessions(caller, random, case)?;
    let lists = ProfileLists::of(held.oracle.profile());
    opening(caller, &lists)?;
    for session in [&held, &spent] {
        cutting(caller, random, session)?;
        sheets(caller, random, session)?;
        reading(caller, session)?;
        schedules(caller, session)?;
    }
    reading_file(caller, random, &held)?;
    writing_file(caller, random, &held)
}

fn around(exact: usize) -> Vec<usize> {
    let mut lengths = vec![0, 1, exact, exact + 1, exact + 2, 2 * exact];
    lengths.extend((exact.saturating_sub(2)..exact).rev());
    lengths
}

/// An open session and a spent one of the same profile.
fn sessions(caller: &mut Caller, random: &mut Random, case: usize) -> Checked<(Held, Held)> {
    loop {
        let profile = if case.is_multiple_of(2) {
            profiles::small(random)
        } else {
            profiles::large(random)
        };
        if let Some(held) = caller.open(&OpenCall::of(&profile))? {
            if let Some(spent) = spend(caller, &held)? {
                return Ok((held, spent));
            }
        }
    }
}

/// Asks for a total above the total's ceiling, where that is a well-formed cut.
fn spend(caller: &mut Caller, held: &Held) -> Checked<Option<Held>> {
    let mut spent = held.clone();
    let cut = CutNumbers {
        kind: Kind::TotalFloor as usize,
        day: 0,
        value: held.oracle.shown().total.ceiling as i32 + 1,
    };
    let call = CutCall {
        session_length: SESSION_BYTES,
        cut,
        changed_length: 2 * held.oracle.days(),
    };
    caller.cut(&mut spent, &call)?;
    Ok(spent.oracle.is_spent().then_some(spent))
}

/// The profile's lists with one of them at another length, for each list and length.
fn resized(lists: &ProfileLists) -> Vec<ProfileLists> {
    let choices: [fn(&mut ProfileLists) -> &mut Vec<u8>; 3] =
        [|l| &mut l.floors, |l| &mut l.ceilings, |l| &mut l.rises];
    let mut all = Vec::new();
    for choose in choices {
        let mut changed = lists.clone();
        for length in around(choose(&mut changed).len()) {
            choose(&mut changed).resize(length, 0);
            all.push(changed.clone());
        }
    }
    all
}

fn opening(caller: &mut Caller, lists: &ProfileLists) -> Checked {
    for session_length in around(SESSION_BYTES) {
        let lists = lists.clone();
        caller.open(&OpenCall {
            session_length,
            lists,
        })?;
    }
    for lists in resized(lists) {
        caller.open(&OpenCall {
            session_length: SESSION_BYTES,
            lists,
        })?;
    }
    Ok(())
}

/// Each cut is tried on a copy of the session.
fn cutting(caller: &mut Caller, random: &mut Random, held: &Held) -> Checked {
    let changed_length = 2 * held.oracle.days();
    for session_length in around(SESSION_BYTES) {
        let call = CutCall {
            session_length,
            cut: cuts::cut(random, &held.oracle, true),
            changed_length,
        };
        caller.cut(&mut held.clone(), &call)?;
    }
    for changed_length in around(changed_length) {
        let call = CutCall {
            session_length: SESSION_BYTES,
            cut: cuts::cut(random, &held.oracle, true),
            changed_length,
        };
        caller.cut(&mut held.clone(), &call)?;
    }
    Ok(())
}

/// Each sheet is tried on a copy of the session.
fn sheets(caller: &mut Caller, random: &mut Random, held: &Held) -> Checked {
    let cuts = bytes_of_cuts(random, held);
    let exact = SheetCall {
        session_length: SESSION_BYTES,
        answers_length: cuts.len() / CUT_BYTES * ANSWER_BYTES,
        changed_length: 2 * held.oracle.days(),
        cuts,
    };
    let choices: [fn(&mut SheetCall) -> &mut usize; 3] = [
        |call| &mut call.session_length,
        |call| &mut call.answers_length,
        |call| &mut call.changed_length,
    ];
    for choose in choices {
        let mut call = exact.clone();
        for length in around(*choose(&mut call)) {
            *choose(&mut call) = length;
            caller.sheet(&mut held.clone(), &call)?;
        }
    }
    for length in around(exact.cuts.len()) {
        let mut call = exact.clone();
        call.cuts.resize(length, 0);
        caller.sheet(&mut held.clone(), &call)?;
    }
    longest_sheets(caller, held)
}

/// Lengths around 512 cuts, with an answer for each and with one answer less.
fn longest_sheets(caller: &mut Caller, held: &Held) -> Checked {
    let most = CUT_BYTES * MOST_CUTS;
    for length in [most, most + 1, most + CUT_BYTES - 1, most + CUT_BYTES] {
        for answers in [MOST_CUTS + 1, MOST_CUTS, MOST_CUTS - 1] {
            let call = SheetCall {
                session_length: SESSION_BYTES,
                cuts: vec![0; length],
                answers_length: ANSWER_BYTES * answers,
                changed_length: 2 * held.oracle.days(),
            };
            caller.sheet(&mut held.clone(), &call)?;
        }
    }
    Ok(())
}

fn reading(caller: &mut Caller, held: &Held) -> Checked {
    let exact = ReadCall {
        session_length: SESSION_BYTES,
        floors_length: 2 * held.oracle.days(),
        ceilings_length: 2 * held.oracle.days(),
    };
    for session_length in around(exact.session_length) {
        let call = ReadCall {
            session_length,
            ..exact
        };
        caller.read(held, &call)?;
    }
    for length in around(exact.floors_length) {
        let (mut short_floors, mut short_ceilings) = (exact.clone(), exact.clone());
        short_floors.floors_length = length;
        short_ceilings.ceilings_length = length;
        caller.read(held, &short_floors)?;
        caller.read(held, &short_ceilings)?;
    }
    Ok(())
}

fn schedules(caller: &mut Caller, held: &Held) -> Checked {
    let exact = 2 * held.oracle.days();
    for session_length in around(SESSION_BYTES) {
        write_and_inspect(caller, held, session_length, exact)?;
    }
    for schedule_length in around(exact) {
        write_and_inspect(caller, held, SESSION_BYTES, schedule_length)?;
    }
    Ok(())
}

fn write_and_inspect(
    caller: &mut Caller,
    held: &Held,
    session_length: usize,
    schedule_length: usize,
) -> Checked {
    let shown = held.oracle.shown();
    let day = shown.days.len() - 1;
    let for_day = WriteDayCall {
        session_length,
        day,
        value: shown.days[day].floor as i32,
        schedule_length,
    };
    caller.write_day(held, &for_day)?;
    let for_total = WriteTotalCall {
        session_length,
        value: shown.total.ceiling as i32,
        schedule_length,
    };
    caller.write_total(held, &for_total)?;
    let mut schedule = bytes_of(&shown.floors());
    schedule.resize(schedule_length, 0);
    let inspection = InspectCall {
        session_length,
        schedule,
    };
    caller.inspect(held, &inspection)
}

/// Some cuts of the session in a file's 8 bytes each.
fn bytes_of_cuts(random: &mut Random, held: &Held) -> Vec<u8> {
    let mut bytes = Vec::new();
    for _ in 0..random.below(5) {
        bytes.extend_from_slice(&cuts::cut(random, &held.oracle, false).bytes());
    }
    bytes
}

fn reading_file(caller: &mut Caller, random: &mut Random, held: &Held) -> Checked {
    let lists = ProfileLists::of(held.oracle.profile());
    let cuts = bytes_of_cuts(random, held);
    let exact = ReadFileCall {
        file: file::bytes(&lists, &cuts),
        floors_length: lists.floors.len(),
        ceilings_length: lists.ceilings.len(),
        rises_length: lists.rises.len(),
        cuts_length: cuts.len(),
    };
    for length in around(exact.file.len()) {
        let mut call = exact.clone();
        call.file.resize(length, 0);
        caller.read_file(&call)?;
    }
    let choices: [fn(&mut ReadFileCall) -> &mut usize; 4] = [
        |call| &mut call.floors_length,
        |call| &mut call.ceilings_length,
        |call| &mut call.rises_length,
        |call| &mut call.cuts_length,
    ];
    for choose in choices {
        let mut call = exact.clone();
        for length in around(*choose(&mut call)) {
            *choose(&mut call) = length;
            caller.read_file(&call)?;
        }
    }
    Ok(())
}

fn writing_file(caller: &mut Caller, random: &mut Random, held: &Held) -> Checked {
    let lists = ProfileLists::of(held.oracle.profile());
    let cuts = bytes_of_cuts(random, held);
    let exact = WriteFileCall {
        file_length: file::bytes(&lists, &cuts).len(),
        lists,
        cuts,
    };
    for lists in resized(&exact.lists) {
        let call = WriteFileCall {
            lists,
            ..exact.clone()
        };
        caller.write_file(&call)?;
    }
    for length in around(exact.cuts.len()) {
        let mut call = exact.clone();
        call.cuts.resize(length, 0);
        caller.write_file(&call)?;
    }
    for file_length in around(exact.file_length) {
        let call = WriteFileCall {
            file_length,
            ..exact.clone()
        };
        caller.write_file(&call)?;
    }
    Ok(())
}
