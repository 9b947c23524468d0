//! Counts of what was called and what was answered, and whether everything that the header
//! documents occurred.

use std::collections::BTreeMap;
use std::fmt;

use crate::lent::Checked;
use crate::oracle::causes::Cause;
use crate::oracle::profile::Rule;

#[derive(Clone, Copy, PartialEq, Eq, PartialOrd, Ord, Debug)]
pub enum Entry {
    Open,
    Cut,
    CutSheet,
    Read,
    WriteDay,
    WriteTotal,
    Inspect,
    ReadFile,
    WriteFile,
}

/// The refusals of each entry, in the header's order.
const DOCUMENTED: [(Entry, &[Cause]); 9] = [
    (
        Entry::Open,
        &[
            Cause::SessionLength,
            Cause::DayCount,
            Cause::ListLength,
            Cause::Point,
            Cause::Rise,
            Cause::Total,
            Cause::FloorAboveCeiling,
            Cause::FirstDay,
            Cause::NoSchedule,
        ],
    ),
    (
        Entry::Cut,
        &[
            Cause::SessionLength,
            Cause::UnknownKind,
            Cause::DayOfTotalCut,
            Cause::Day,
            Cause::CutPoint,
            Cause::CutTotal,
            Cause::ListLength,
            Cause::Spent,
            Cause::NoSchedule,
        ],
    ),
    (
        Entry::CutSheet,
        &[
            Cause::SessionLength,
            Cause::CutCount,
            Cause::ShortAnswers,
            Cause::ListLength,
            Cause::CutsLength,
        ],
    ),
    (Entry::Read, &[Cause::SessionLength, Cause::ListLength]),
    (
        Entry::WriteDay,
        &[
            Cause::SessionLength,
            Cause::ListLength,
            Cause::Day,
            Cause::Spent,
            Cause::OutsideRange,
        ],
    ),
    (
        Entry::WriteTotal,
        &[
            Cause::SessionLength,
            Cause::ListLength,
            Cause::Spent,
            Cause::OutsideRange,
        ],
    ),
    (
        Entry::Inspect,
        &[Cause::SessionLength, Cause::ListLength, Cause::Spent],
    ),
    (
        Entry::ReadFile,
        &[
            Cause::FileUnderHeader,
            Cause::DayCount,
            Cause::CutCount,
            Cause::FileOffset,
            Cause::FileLength,
            Cause::LastRise,
            Cause::UnknownKind,
            Cause::DayOfTotalCut,
            Cause::ListLength,
        ],
    ),
    (
        Entry::WriteFile,
        &[
            Cause::DayCount,
            Cause::CutCount,
            Cause::ListLength,
            Cause::Point,
            Cause::Rise,
            Cause::Total,
            Cause::FloorAboveCeiling,
            Cause::FirstDay,
            Cause::UnknownKind,
            Cause::DayOfTotalCut,
            Cause::Day,
            Cause::CutPoint,
            Cause::CutTotal,
            Cause::OutputLength,
        ],
    ),
];

/// The refusals of a cut in a sheet that is taken.
const IN_SHEETS: [Cause; 7] = [
    Cause::UnknownKind,
    Cause::DayOfTotalCut,
    Cause::Day,
    Cause::CutPoint,
    Cause::CutTotal,
    Cause::Spent,
    Cause::NoSchedule,
];

const RULES: [&str; 4] = [
    "kept",
    "a day's range broken",
    "a rise broken",
    "the total's range broken",
];

#[derive(Default)]
pub struct Tally {
    answers: BTreeMap<(Entry, Option<Cause>), u64>,
    in_sheets: BTreeMap<Option<Cause>, u64>,
    rules: [u64; RULES.len()],
    searched: u64,
    foreign: BTreeMap<Entry, u64>,
}

impl Tally {
    pub fn answer(&mut self, entry: Entry, refusal: Option<Cause>) {
        *self.answers.entry((entry, refusal)).or_default() += 1;
    }

    /// A cut of a sheet that is taken.
    pub fn in_sheet(&mut self, refusal: Option<Cause>) {
        *self.in_sheets.entry(refusal).or_default() += 1;
    }

    pub fn rule(&mut self, rule: Rule) {
        self.rules[rule.number()] += 1;
    }

    /// One comparison of the two kinds of oracle.
    pub fn searched(&mut self) {
        self.searched += 1;
    }

    /// One call on foreign session bytes.
    pub fn foreign(&mut self, entry: Entry) {
        *self.foreign.entry(entry).or_default() += 1;
    }

    pub fn operations(&self) -> u64 {
        self.answers.values().sum()
    }

    fn count(&self, entry: Entry, refusal: Option<Cause>) -> u64 {
        self.answers.get(&(entry, refusal)).copied().unwrap_or(0)
    }

    /// Every documented answer of every entry occurred, and of the cuts in sheets.
    pub fn complete(&self) -> Checked {
        for answer in IN_SHEETS.map(Some).into_iter().chain([None]) {
            if !self.in_sheets.contains_key(&answer) {
                return Err(format!("no cut of a sheet was answered {answer:?}"));
            }
        }
        for (entry, causes) in DOCUMENTED {
            let answers = causes.iter().map(|&cause| Some(cause)).chain([None]);
            for answer in answers {
                if self.count(entry, answer) == 0 {
                    return Err(format!("{entry:?} never answered {answer:?}"));
                }
            }
        }
        match self.rules.iter().position(|&count| count == 0) {
            None => Ok(()),
            Some(rule) => Err(format!("inspecting never found: {}", RULES[rule])),
        }
    }
}

impl fmt::Display for Tally {
    fn fmt(&self, out: &mut fmt::Formatter) -> fmt::Result {
        writeln!(out, "calls, taken, and refused by number, cause and count:")?;
        for (entry, causes) in DOCUMENTED {
            let taken = self.count(entry, None);
            let refused = causes.iter().map(|&cause| self.count(entry, Some(cause)));
            let calls = taken + refused.sum::<u64>();
            write!(out, "{entry:?}: {calls} calls, {taken} taken")?;
            for &cause in causes {
                let count = self.count(entry, Some(cause));
                write!(out, ", {} {cause:?} {count}", cause.number())?;
            }
            writeln!(out)?;
        }
        let answered = |answer| self.in_sheets.get(&answer).copied().unwrap_or(0);
        write!(out, "cuts of sheets: {} taken", answered(None))?;
        for cause in IN_SHEETS {
            let count = answered(Some(cause));
            write!(out, ", {} {cause:?} {count}", cause.number())?;
        }
        writeln!(out)?;
        let rules = RULES.iter().zip(self.rules);
        let found: Vec<String> = rules
            .map(|(name, count)| format!("{name} {count}"))
            .collect();
        writeln!(out, "inspected: {}", found.join(", "))?;
        writeln!(
            out,
            "ranges compared with exhaustive search: {}",
            self.searched
        )?;
        writeln!(out, "calls on foreign session bytes: {:?}", self.foreign)
    }
}
