//! Document 01's profiles worked by hand, those of requests One and Two, the sheets of request
//! Three, document 01's file with the first counted day, and its limits. They test the oracle too:
//! what is expected stands here as in the document, but for the changed days, of which it gives at
//! most the number.

use crate::caller::{Caller, Held};
use crate::lent::{same, same_bytes, Checked};
use crate::oracle::calls::{CutCall, CutNumbers, OpenCall, ReadFileCall, SheetCall, WriteFileCall};
use crate::oracle::causes::Cause;
use crate::oracle::file;
use crate::oracle::profile::{Profile, Range, Ranges};
use crate::oracle::session::{Session, Sheet};
use crate::oracle::{ANSWER_BYTES, CUT_BYTES, DAYS_OFFSET, HEADER_BYTES, SESSION_BYTES};
use crate::random::Random;

pub const CASES: usize = EXAMPLES.len() + 7;

pub fn case(caller: &mut Caller, _: &mut Random, case: usize) -> Checked {
    match case.checked_sub(EXAMPLES.len()) {
        None => example(caller, &EXAMPLES[case]),
        Some(0) => files(caller),
        Some(1) => refused_files(caller),
        Some(2) => room(caller),
        Some(3) => limits(caller),
        Some(4) => longest_lists(caller),
        Some(5) => sheets(caller),
        Some(_) => refused_sheets(caller),
    }
}

type Bounds = (i64, i64);

enum End {
    Refused(u8),
    Spent,
    /// The ranges of the days and of the total, and the days that each cut changed, as listed.
    Shown(&'static [Bounds], Bounds, &'static [&'static [usize]]),
}

/// Rises are 0 where none are given.
struct Example {
    name: &'static str,
    days: &'static [Bounds],
    rises: &'static [i64],
    first: usize,
    total: Bounds,
    cuts: &'static [(usize, usize, i32)],
    end: End,
}

const DAY_FLOOR: usize = 0;
const DAY_CEILING: usize = 1;
const TOTAL_CEILING: usize = 3;

const OF_A: &[Bounds] = &[(2, 6), (4, 7), (4, 7)];
const FOUR_DAYS: &[Bounds] = &[(0, 9); 4];

const EXAMPLES: &[Example] = &[
    Example {
        name: "A",
        days: OF_A,
        rises: &[],
        first: 0,
        total: (10, 12),
        cuts: &[],
        end: End::Shown(&[(2, 4), (4, 5), (4, 6)], (10, 12), &[]),
    },
    Example {
        name: "B, first cut",
        days: OF_A,
        rises: &[],
        first: 0,
        total: (10, 12),
        cuts: &[(DAY_FLOOR, 0, 3)],
        end: End::Shown(&[(3, 4), (4, 4), (4, 5)], (11, 12), &[&[0, 1, 2]]),
    },
    Example {
        name: "B",
        days: OF_A,
        rises: &[],
        first: 0,
        total: (10, 12),
        cuts: &[(DAY_FLOOR, 0, 3), (TOTAL_CEILING, 0, 11)],
        end: End::Shown(&[(3, 3), (4, 4), (4, 4)], (11, 11), &[&[0, 1, 2], &[0, 2]]),
    },
    Example {
        name: "C",
        days: OF_A,
        rises: &[],
        first: 0,
        total: (10, 12),
        cuts: &[(TOTAL_CEILING, 0, 11), (DAY_FLOOR, 0, 3)],
        end: End::Shown(&[(3, 3), (4, 4), (4, 4)], (11, 11), &[&[0, 1, 2], &[0, 2]]),
    },
    Example {
        name: "D",
        days: OF_A,
        rises: &[],
        first: 0,
        total: (10, 12),
        cuts: &[(TOTAL_CEILING, 0, 11), (DAY_FLOOR, 0, 4)],
        end: End::Spent,
    },
    Example {
        name: "E",
        days: &[(2, 6), (4, 7), (4, 7), (5, 7), (6, 9), (7, 9)],
        rises: &[],
        first: 0,
        total: (28, 29),
        cuts: &[],
        end: End::Shown(
            &[(2, 3), (4, 4), (4, 5), (5, 6), (6, 7), (7, 8)],
            (28, 29),
            &[],
        ),
    },
    Example {
        name: "F",
        days: &[(1, 5), (4, 5), (6, 6), (6, 7)],
        rises: &[],
        first: 0,
        total: (17, 18),
        cuts: &[],
        end: End::Shown(&[(1, 2), (4, 5), (6, 6), (6, 7)], (17, 18), &[]),
    },
    Example {
        name: "G",
        days: &[(0, 5), (0, 5)],
        rises: &[],
        first: 0,
        total: (9, 10),
        cuts: &[],
        end: End::Shown(&[(4, 5), (5, 5)], (9, 10), &[]),
    },
    Example {
        name: "H",
        days: &[(0, 6), (1, 7)],
        rises: &[1],
        first: 0,
        total: (6, 13),
        cuts: &[],
        end: End::Shown(&[(0, 6), (4, 7)], (6, 13), &[]),
    },
    Example {
        name: "I",
        days: &[(3, 8)],
        rises: &[],
        first: 0,
        total: (5, 6),
        cuts: &[],
        end: End::Shown(&[(5, 6)], (5, 6), &[]),
    },
    Example {
        name: "J",
        days: &[(5, 9), (0, 4)],
        rises: &[],
        first: 0,
        total: (0, 20),
        cuts: &[],
        end: End::Refused(8),
    },
    Example {
        name: "J with rise -1",
        days: &[(5, 9), (0, 4)],
        rises: &[-1],
        first: 0,
        total: (0, 20),
        cuts: &[],
        end: End::Shown(&[(5, 5), (4, 4)], (9, 9), &[]),
    },
    Example {
        name: "K",
        days: OF_A,
        rises: &[],
        first: 1,
        total: (10, 12),
        cuts: &[],
        end: End::Shown(&[(2, 6), (4, 6), (5, 7)], (10, 12), &[]),
    },
    Example {
        name: "L",
        days: &[(0, 5), (0, 10)],
        rises: &[],
        first: 1,
        total: (8, 10),
        cuts: &[],
        end: End::Shown(&[(0, 5), (8, 10)], (8, 10), &[]),
    },
    Example {
        name: "K with total 8 to 9",
        days: OF_A,
        rises: &[],
        first: 1,
        total: (8, 9),
        cuts: &[],
        end: End::Shown(&[(2, 4), (4, 4), (4, 5)], (8, 9), &[]),
    },
    Example {
        name: "H counted from day 1",
        days: &[(0, 6), (1, 7)],
        rises: &[1],
        first: 1,
        total: (5, 6),
        cuts: &[],
        end: End::Shown(&[(0, 5), (5, 6)], (5, 6), &[]),
    },
    Example {
        name: "a filling day below zero",
        days: &[(-100, 100), (-100, 100)],
        rises: &[],
        first: 1,
        total: (50, 60),
        cuts: &[],
        end: End::Shown(&[(-100, 60), (50, 60)], (50, 60), &[]),
    },
    Example {
        name: "A counted from day 2",
        days: OF_A,
        rises: &[],
        first: 2,
        total: (10, 12),
        cuts: &[],
        end: End::Refused(8),
    },
    Example {
        name: "A counted from day 3",
        days: OF_A,
        rises: &[],
        first: 3,
        total: (10, 12),
        cuts: &[],
        end: End::Refused(13),
    },
    Example {
        name: "A counted from day 3, its total crossed",
        days: OF_A,
        rises: &[],
        first: 3,
        total: (12, 10),
        cuts: &[],
        end: End::Refused(6),
    },
    Example {
        name: "A counted from day 65,535",
        days: OF_A,
        rises: &[],
        first: 65_535,
        total: (10, 12),
        cuts: &[],
        end: End::Refused(13),
    },
    Example {
        name: "J counted from day 2",
        days: &[(5, 9), (0, 4)],
        rises: &[],
        first: 2,
        total: (0, 20),
        cuts: &[],
        end: End::Refused(13),
    },
    Example {
        name: "J counted from day 1",
        days: &[(5, 9), (0, 4)],
        rises: &[],
        first: 1,
        total: (0, 20),
        cuts: &[],
        end: End::Refused(8),
    },
    Example {
        name: "A, losses 2, 1, 2",
        days: OF_A,
        rises: &[],
        first: 0,
        total: (10, 12),
        cuts: &[(DAY_FLOOR, 0, 4)],
        end: End::Shown(&[(4, 4), (4, 4), (4, 4)], (12, 12), &[&[0, 2, 1]]),
    },
    Example {
        name: "losses 7, 6, 4, 0",
        days: FOUR_DAYS,
        rises: &[],
        first: 0,
        total: (0, 36),
        cuts: &[(TOTAL_CEILING, 0, 10)],
        end: End::Shown(&[(0, 2), (0, 3), (0, 5), (0, 9)], (0, 10), &[&[0, 1, 2]]),
    },
    Example {
        name: "losses 0, 5, 1",
        days: &[(0, 4), (0, 10), (0, 6)],
        rises: &[-10, -10],
        first: 0,
        total: (0, 20),
        cuts: &[(TOTAL_CEILING, 0, 5)],
        end: End::Shown(&[(0, 4), (0, 5), (0, 5)], (0, 5), &[&[1, 2]]),
    },
    Example {
        name: "losses 6, 6, 6, 0",
        days: FOUR_DAYS,
        rises: &[],
        first: 0,
        total: (0, 36),
        cuts: &[(DAY_CEILING, 2, 3)],
        end: End::Shown(&[(0, 3), (0, 3), (0, 3), (0, 9)], (0, 18), &[&[0, 1, 2]]),
    },
    Example {
        name: "losses 0, 5, 5, 5",
        days: FOUR_DAYS,
        rises: &[],
        first: 0,
        total: (0, 36),
        cuts: &[(DAY_FLOOR, 1, 5)],
        end: End::Shown(&[(0, 9), (5, 9), (5, 9), (5, 9)], (15, 36), &[&[1, 2, 3]]),
    },
    Example {
        name: "losses 1, 3, 4, 2",
        days: &[(0, 6), (0, 8), (0, 9), (0, 7)],
        rises: &[-10, -10, -10],
        first: 0,
        total: (0, 30),
        cuts: &[(TOTAL_CEILING, 0, 5)],
        end: End::Shown(&[(0, 5), (0, 5), (0, 5), (0, 5)], (0, 5), &[&[2, 1, 3, 0]]),
    },
    Example {
        name: "losses 4, 4, 5, of day 1 at both ends",
        days: &[(0, 9); 3],
        rises: &[],
        first: 0,
        total: (12, 12),
        cuts: &[(DAY_FLOOR, 0, 4)],
        end: End::Shown(&[(4, 4), (4, 4), (4, 4)], (12, 12), &[&[2, 0, 1]]),
    },
];

fn example(caller: &mut Caller, example: &Example) -> Checked {
    run_example(caller, example)
        .map_err(|difference| format!("worked by hand, {}: {difference}", example.name))
}

fn run_example(caller: &mut Caller, example: &Example) -> Checked {
    let mut rises = example.rises.to_vec();
    rises.resize(example.days.len() - 1, 0);
    let profile = Profile {
        ranges: ranges(example.days, example.total),
        rises,
        first: example.first,
    };
    let opening = OpenCall::of(&profile);
    let Some(mut held) = caller.open(&opening)? else {
        return refused_as(&opening, &example.end);
    };
    let opened = held.oracle.shown().clone();
    let mut changed = Vec::new();
    for &(kind, day, value) in example.cuts {
        changed.push(apply(caller, &mut held, CutNumbers { kind, day, value })?);
    }
    let (shown, spent, lists) = match example.end {
        End::Refused(_) => return Err("opened, and not refused".into()),
        End::Spent => (opened, true, changed.clone()),
        End::Shown(days, total, lists) => (ranges(days, total), false, owned(lists)),
    };
    same("spent", held.oracle.is_spent(), spent)?;
    same("ranges", held.oracle.shown(), &shown)?;
    same("changed days", changed, lists)
}

fn ranges(days: &[Bounds], total: Bounds) -> Ranges {
    let range = |&(floor, ceiling): &Bounds| Range { floor, ceiling };
    Ranges {
        days: days.iter().map(range).collect(),
        total: range(&total),
    }
}

fn owned(lists: &[&[usize]]) -> Vec<Vec<usize>> {
    lists.iter().map(|days| days.to_vec()).collect()
}

fn apply(caller: &mut Caller, held: &mut Held, cut: CutNumbers) -> Checked<Vec<usize>> {
    let call = CutCall {
        session_length: SESSION_BYTES,
        cut,
        changed_length: 2 * held.oracle.days(),
    };
    caller.cut(held, &call)
}

/// Document 01's file, with the first counted day after its header.
const FILE: [u8; 52] = [
    0x03, 0x00, 0x02, 0x00, 0x12, 0x00, 0x24, 0x00, 0x0A, 0x00, 0x00, 0x00, 0x0C, 0x00, 0x00, 0x00,
    0x00, 0x00, 0x02, 0x00, 0x06, 0x00, 0x00, 0x00, 0x04, 0x00, 0x07, 0x00, 0x00, 0x00, 0x04, 0x00,
    0x07, 0x00, 0x00, 0x00, 0x00, 0x00, 0x00, 0x00, 0x03, 0x00, 0x00, 0x00, 0x03, 0x00, 0x00, 0x00,
    0x0B, 0x00, 0x00, 0x00,
];

/// The file with each first counted day, and what it ends in.
fn files(caller: &mut Caller) -> Checked {
    let ends = [
        End::Shown(&[(3, 3), (4, 4), (4, 4)], (11, 11), &[]),
        End::Shown(&[(3, 5), (4, 5), (5, 7)], (10, 11), &[]),
        End::Refused(8),
        End::Refused(13),
    ];
    for (first, end) in ends.iter().enumerate() {
        let mut file = FILE;
        file[HEADER_BYTES] = first as u8;
        file_ends(caller, &file, end)
            .map_err(|difference| format!("the file counted from day {first}: {difference}"))?;
    }
    Ok(())
}

fn file_ends(caller: &mut Caller, file: &[u8], end: &End) -> Checked {
    let contents = caller.read_file(&reading(file))?;
    let contents = contents.ok_or("the file was refused")?;
    let opening = OpenCall {
        session_length: SESSION_BYTES,
        lists: contents.lists,
    };
    let Some(mut held) = caller.open(&opening)? else {
        return refused_as(&opening, end);
    };
    let End::Shown(days, total, _) = *end else {
        return Err("opened, and not refused".into());
    };
    for cut in contents.cuts.chunks_exact(CUT_BYTES) {
        apply(caller, &mut held, CutNumbers::of_bytes(cut))?;
    }
    same("the ranges", held.oracle.shown(), &ranges(days, total))
}

fn reading(file: &[u8]) -> ReadFileCall {
    ReadFileCall {
        file: file.to_vec(),
        floors_length: 6,
        ceilings_length: 6,
        rises_length: 4,
        cuts_length: 16,
    }
}

/// The file's first 17 bytes, and document 01's own, which has no first counted day.
fn refused_files(caller: &mut Caller) -> Checked {
    let mut older = [&FILE[..HEADER_BYTES], &FILE[DAYS_OFFSET..]].concat();
    older[4] = 0x10;
    older[6] = 0x22;
    for bytes in [&FILE[..DAYS_OFFSET - 1], &older] {
        let call = reading(bytes);
        caller.read_file(&call)?;
        let number = file::read(&call).err().map(Cause::number);
        same("the refusal of a file", number, Some(11))?;
    }
    Ok(())
}

/// The file is written into 52 bytes, and not into 51.
fn room(caller: &mut Caller) -> Checked {
    let contents = caller.read_file(&reading(&FILE))?;
    let contents = contents.ok_or("the file was refused")?;
    for (file_length, number) in [(51, Some(2)), (52, None)] {
        let call = WriteFileCall {
            lists: contents.lists.clone(),
            cuts: contents.cuts.clone(),
            file_length,
        };
        let written = caller.write_file(&call)?;
        let refusal = file::write(&call).err().map(Cause::number);
        same("the refusal to write", refusal, number)?;
        if let Some(bytes) = written {
            same_bytes("the written file", &bytes, &FILE)?;
        }
    }
    Ok(())
}

/// The number that refuses an opening.
fn refusal(opening: &OpenCall) -> Option<u8> {
    Session::open(opening).err().map(Cause::number)
}

fn refused_as(opening: &OpenCall, end: &End) -> Checked {
    let End::Refused(number) = *end else {
        return Err("refused, and not opened".into());
    };
    same("the refusal", refusal(opening), Some(number))
}

/// Day counts and points at their bounds and one past them.
fn limits(caller: &mut Caller) -> Checked {
    let cases = [
        (512, 0, 0, None),
        (513, 0, 0, Some(1)),
        (0, 0, 0, Some(1)),
        (1, 0, 4_000, None),
        (1, 0, 4_001, Some(3)),
        (1, -1_000, 0, None),
        (1, -1_001, 0, Some(3)),
    ];
    for (days, floor, ceiling, number) in cases {
        let bounds = vec![(floor, ceiling); days];
        let profile = Profile {
            ranges: ranges(&bounds, (-512_000, 2_048_000)),
            rises: vec![0; days.saturating_sub(1)],
            first: 0,
        };
        let call = OpenCall::of(&profile);
        caller.open(&call)?;
        same("the refusal at a limit", refusal(&call), number)?;
    }
    Ok(())
}

/// Lists of 512 days, all of whose losses are equal, or different.
fn longest_lists(caller: &mut Caller) -> Checked {
    let by_day: Vec<usize> = (0..512).collect();
    let last_first: Vec<usize> = (0..512).rev().collect();
    // 5 * 205 is 1 more than a multiple of 512.
    let shuffled: Vec<usize> = (0..512).rev().map(|k| k * 205 % 512).collect();
    lists(caller, |_| 1, &by_day)?;
    lists(caller, |_| 4_900, &by_day)?;
    lists(caller, |day| 512 - day, &by_day)?;
    lists(caller, |day| 1 + day, &last_first)?;
    lists(caller, |day| 1 + 5 * day % 512, &shuffled)
}

/// Cuts the total's ceiling so that it leaves each day the 100 points above its floor.
fn lists(caller: &mut Caller, loss: fn(usize) -> usize, expected: &[usize]) -> Checked {
    let bounds = |day| (-1_000, -900 + loss(day) as i64);
    let days: Vec<Bounds> = (0..512).map(bounds).collect();
    let profile = Profile {
        ranges: ranges(&days, (-512_000, 2_048_000)),
        rises: vec![-2_000; 511],
        first: 0,
    };
    let held = caller.open(&OpenCall::of(&profile))?;
    let cut = CutNumbers {
        kind: TOTAL_CEILING,
        day: 0,
        value: -511_900,
    };
    let changed = apply(caller, &mut held.ok_or("refused")?, cut)?;
    same("the list of 512 days", changed.as_slice(), expected)
}

/// A sheet: its cuts, each beside its answer (its refusal or 0, and its number of changed days), and
/// the days that differ between the start and the end, as listed.
type WorkedSheet = (&'static [(WorkedCut, (u8, usize))], &'static [usize]);

type WorkedCut = (usize, usize, i32);

const SHEET_OF_A: WorkedSheet = (
    &[
        ((DAY_FLOOR, 0, 3), (0, 3)),
        ((DAY_FLOOR, 3, 5), (7, 0)),
        ((7, 0, 0), (12, 0)),
        ((TOTAL_CEILING, 1, 11), (12, 0)),
        ((DAY_FLOOR, 1, 5_000), (3, 0)),
        ((TOTAL_CEILING, 0, 11), (0, 2)),
    ],
    &[0, 2, 1],
);

const SPENDING: WorkedSheet = (
    &[
        ((TOTAL_CEILING, 0, 11), (0, 3)),
        ((DAY_FLOOR, 0, 4), (8, 0)),
        ((DAY_FLOOR, 0, 3), (9, 0)),
        ((9, 0, 0), (12, 0)),
    ],
    &[],
);

const ONCE_SPENT: WorkedSheet = (
    &[((DAY_FLOOR, 0, 3), (9, 0)), ((DAY_FLOOR, 9, 3), (7, 0))],
    &[],
);

const LOSSES: WorkedSheet = (
    &[
        ((DAY_CEILING, 0, 3), (0, 1)),
        ((TOTAL_CEILING, 0, 9), (0, 1)),
        ((DAY_CEILING, 0, 1), (0, 1)),
    ],
    &[0, 1],
);

/// Lists for changed days have a place more than the days.
fn sheets(caller: &mut Caller) -> Checked {
    let opened = &[(2, 4), (4, 5), (4, 6)];
    let mut held = open_free(caller, OF_A, (10, 12), 0)?;
    ends_in(caller, &mut held, &(&[], &[]), opened, (10, 12))?;
    let cut = &[(3, 3), (4, 4), (4, 4)];
    ends_in(caller, &mut held, &SHEET_OF_A, cut, (11, 11))?;
    let mut held = open_free(caller, OF_A, (10, 12), 0)?;
    ends_in(caller, &mut held, &SPENDING, opened, (10, 12))?;
    same("spent", held.oracle.is_spent(), true)?;
    ends_in(caller, &mut held, &ONCE_SPENT, opened, (10, 12))?;
    let mut held = open_free(caller, &[(0, 4), (0, 10), (0, 6)], (0, 20), -10)?;
    let left = &[(0, 1), (0, 9), (0, 6)];
    ends_in(caller, &mut held, &LOSSES, left, (0, 9))
}

fn open_free(caller: &mut Caller, days: &[Bounds], total: Bounds, rise: i64) -> Checked<Held> {
    let profile = Profile {
        ranges: ranges(days, total),
        rises: vec![rise; days.len() - 1],
        first: 0,
    };
    let held = caller.open(&OpenCall::of(&profile))?;
    Ok(held.ok_or("a sheet's profile was refused")?)
}

fn sheet_call(cuts: &[WorkedCut], answers: usize, places: usize) -> SheetCall {
    let numbers = cuts.iter();
    let bytes = numbers.map(|&(kind, day, value)| CutNumbers { kind, day, value }.bytes());
    SheetCall {
        session_length: SESSION_BYTES,
        cuts: bytes.flatten().collect(),
        answers_length: ANSWER_BYTES * answers,
        changed_length: 2 * places,
    }
}

fn ends_in(
    caller: &mut Caller,
    held: &mut Held,
    (cuts, days): &WorkedSheet,
    end: &[Bounds],
    total: Bounds,
) -> Checked {
    let (cuts, answers): (Vec<WorkedCut>, Vec<(u8, usize)>) = cuts.iter().copied().unzip();
    let call = sheet_call(&cuts, cuts.len(), held.oracle.days() + 1);
    let sheet = caller.sheet(held, &call)?.ok_or("a sheet was refused")?;
    same("the answers", numbered_answers(&sheet), answers)?;
    same("the days of a sheet", sheet.changed.as_slice(), days)?;
    same("the end", held.oracle.shown(), &ranges(end, total))
}

fn numbered_answers(sheet: &Sheet) -> Vec<(u8, usize)> {
    let answers = sheet.answers.iter();
    answers
        .map(|answer| match answer {
            Ok(days) => (0, *days),
            Err(cause) => (cause.number(), 0),
        })
        .collect()
}

/// So many cuts, answers and places for changed days, of A, and the refusal; nothing is cut.
fn refused_sheets(caller: &mut Caller) -> Checked {
    let mut held = open_free(caller, OF_A, (10, 12), 0)?;
    let opened = held.bytes.clone();
    for (cuts, answers, places, number) in [(513, 0, 0, 1), (1, 0, 0, 14), (1, 1, 2, 2)] {
        let call = sheet_call(&vec![(DAY_FLOOR, 0, 3); cuts], answers, places);
        let refusal = held.oracle.clone().sheet(&call).err().map(Cause::number);
        same("the refusal of a sheet", refusal, Some(number))?;
        caller.sheet(&mut held, &call)?;
        same_bytes("the session", &held.bytes, &opened)?;
    }
    Ok(())
}
