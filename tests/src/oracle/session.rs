//! A session: a profile and the whole list of its valid cuts. Each cut computes the ranges anew
//! from both.

use std::cmp::Reverse;

use super::calls::{
    elements, CutCall, InspectCall, OpenCall, ReadCall, SheetCall, WriteDayCall, WriteTotalCall,
};
use super::causes::{refuse_if, Cause};
use super::profile::{first_broken, Cut, Profile, Range, Ranges, Rule};
use super::{bisection, judging, ANSWER_BYTES, CUT_BYTES, MOST_CUTS, SESSION_BYTES};

#[derive(Clone)]
pub struct Session {
    profile: Profile,
    cuts: Vec<Cut>,
    opened: Ranges,
    /// `None` if the session is spent.
    present: Option<Ranges>,
}

/// What a single cut is answered: the number of days that it changes, or its refusal.
pub type CutAnswer = Result<usize, Cause>;

/// What a sheet gives that is taken: an answer for each cut, and the days that differ between its
/// start and its end.
#[derive(Clone, PartialEq, Eq, Debug, Default)]
pub struct Sheet {
    pub answers: Vec<CutAnswer>,
    pub changed: Vec<usize>,
}

impl Session {
    pub fn open(call: &OpenCall) -> Result<Session, Cause> {
        let profile = profile_to_open(call)?;
        let opened = bisection::ranges(&profile, &[]).ok_or(Cause::NoSchedule)?;
        Ok(Session {
            profile,
            cuts: Vec::new(),
            present: Some(opened.clone()),
            opened,
        })
    }

    /// The days that an accepted cut changes, the largest loss first, equal losses by day.
    pub fn cut(&mut self, call: &CutCall) -> Result<Vec<usize>, Cause> {
        session_length(call.session_length)?;
        let cut = judging::cut(self.days(), &call.cut)?;
        refuse_if(call.changed_length / 2 < self.days(), Cause::ListLength)?;
        self.cuts.push(cut);
        let before = self.present.take().ok_or(Cause::Spent)?;
        self.present = bisection::ranges(&self.profile, &self.cuts);
        let after = self.present.as_ref().ok_or(Cause::NoSchedule)?;
        Ok(changed_days(&before, after))
    }

    /// Single cuts in their order, each with a list for changed days that is just long enough.
    pub fn sheet(&mut self, call: &SheetCall) -> Result<Sheet, Cause> {
        session_length(call.session_length)?;
        let count = call.cuts.len() / CUT_BYTES;
        refuse_if(count > MOST_CUTS, Cause::CutCount)?;
        refuse_if(
            call.answers_length / ANSWER_BYTES < count,
            Cause::ShortAnswers,
        )?;
        refuse_if(call.changed_length / 2 < self.days(), Cause::ListLength)?;
        refuse_if(
            !call.cuts.len().is_multiple_of(CUT_BYTES),
            Cause::CutsLength,
        )?;
        let start = self.present.clone();
        let answers = call.numbers().into_iter().map(|cut| {
            let single = CutCall {
                session_length: SESSION_BYTES,
                cut,
                changed_length: 2 * self.days(),
            };
            self.cut(&single).map(|days| days.len())
        });
        let answers = answers.collect();
        let ends = start.as_ref().zip(self.present.as_ref());
        let changed = ends.map_or(Vec::new(), |(start, end)| changed_days(start, end));
        Ok(Sheet { answers, changed })
    }

    pub fn read(&self, call: &ReadCall) -> Result<&Ranges, Cause> {
        session_length(call.session_length)?;
        let too_short =
            call.floors_length / 2 < self.days() || call.ceilings_length / 2 < self.days();
        refuse_if(too_short, Cause::ListLength)?;
        Ok(self.shown())
    }

    /// The ranges that the schedule must keep.
    pub fn write_day(&self, call: &WriteDayCall) -> Result<&Ranges, Cause> {
        self.schedule_length(call.session_length, call.schedule_length)?;
        refuse_if(call.day >= self.days(), Cause::Day)?;
        let present = self.present.as_ref().ok_or(Cause::Spent)?;
        inside(present.days[call.day], call.value)?;
        Ok(present)
    }

    /// The ranges that the schedule must keep.
    pub fn write_total(&self, call: &WriteTotalCall) -> Result<&Ranges, Cause> {
        self.schedule_length(call.session_length, call.schedule_length)?;
        let present = self.present.as_ref().ok_or(Cause::Spent)?;
        inside(present.total, call.value)?;
        Ok(present)
    }

    pub fn inspect(&self, call: &InspectCall) -> Result<Rule, Cause> {
        self.schedule_length(call.session_length, call.schedule.len())?;
        let present = self.present.as_ref().ok_or(Cause::Spent)?;
        let schedule = elements(&call.schedule);
        Ok(first_broken(present, &self.profile, &schedule))
    }

    fn schedule_length(&self, session: usize, schedule: usize) -> Result<(), Cause> {
        session_length(session)?;
        refuse_if(schedule != 2 * self.days(), Cause::ListLength)
    }

    pub fn days(&self) -> usize {
        self.profile.ranges.days.len()
    }

    pub fn profile(&self) -> &Profile {
        &self.profile
    }

    pub fn cuts(&self) -> &[Cut] {
        &self.cuts
    }

    pub fn present(&self) -> Option<&Ranges> {
        self.present.as_ref()
    }

    pub fn is_spent(&self) -> bool {
        self.present.is_none()
    }

    /// A spent session shows the ranges that it had when opened.
    pub fn shown(&self) -> &Ranges {
        self.present.as_ref().unwrap_or(&self.opened)
    }
}

/// The days that differ, the largest loss first, equal losses by day.
fn changed_days(before: &Ranges, after: &Ranges) -> Vec<usize> {
    let differs = |&day: &usize| before.days[day] != after.days[day];
    let lost = |day: usize| before.days[day].width() - after.days[day].width();
    let mut changed: Vec<usize> = (0..before.days.len()).filter(differs).collect();
    changed.sort_by_key(|&day| (Reverse(lost(day)), day));
    changed
}

/// The profile of an opening that is refused with 8 or not at all.
pub fn profile_to_open(call: &OpenCall) -> Result<Profile, Cause> {
    session_length(call.session_length)?;
    judging::day_count(call.lists.days)?;
    judging::profile(&call.lists)
}

fn session_length(bytes: usize) -> Result<(), Cause> {
    refuse_if(bytes != SESSION_BYTES, Cause::SessionLength)
}

fn inside(range: Range, value: i32) -> Result<(), Cause> {
    refuse_if(!range.holds(value as i64), Cause::OutsideRange)
}
