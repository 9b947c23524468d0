//! Writing and inspecting schedules.

use super::{Caller, Held};
use crate::entries;
use crate::lent::{same, Checked, Lent, LentNumber};
use crate::oracle::calls::{elements, InspectCall, WriteDayCall, WriteTotalCall};
use crate::oracle::profile::{first_broken, Profile, Ranges, Rule};
use crate::tally::Entry;

impl Caller {
    /// The schedule that was written, if any.
    pub fn write_day(&mut self, held: &Held, call: &WriteDayCall) -> Checked<Option<Vec<i64>>> {
        self.try_write_day(held, call)
            .map_err(|difference| held.explain(format!("{call:?}"), difference))
    }

    fn try_write_day(&mut self, held: &Held, call: &WriteDayCall) -> Checked<Option<Vec<i64>>> {
        let expected = held.oracle.write_day(call);
        let mut session = self.lend_session(&held.bytes, call.session_length);
        let mut schedule = self.lend_room(call.schedule_length);
        let number = entries::write_day(&mut session, call.day, call.value, &mut schedule);
        self.answered(Entry::WriteDay, number, &expected)?;
        session.holds("session", &[])?;
        let written = written_schedule(&schedule, expected.ok(), held.oracle.profile())?;
        if let Some(schedule) = &written {
            let setpoint = schedule[call.day];
            same("the setpoint on the day", setpoint, call.value as i64)?;
        }
        Ok(written)
    }

    /// The schedule that was written, if any.
    pub fn write_total(&mut self, held: &Held, call: &WriteTotalCall) -> Checked<Option<Vec<i64>>> {
        self.try_write_total(held, call)
            .map_err(|difference| held.explain(format!("{call:?}"), difference))
    }

    fn try_write_total(&mut self, held: &Held, call: &WriteTotalCall) -> Checked<Option<Vec<i64>>> {
        let expected = held.oracle.write_total(call);
        let mut session = self.lend_session(&held.bytes, call.session_length);
        let mut schedule = self.lend_room(call.schedule_length);
        let number = entries::write_total(&mut session, call.value, &mut schedule);
        self.answered(Entry::WriteTotal, number, &expected)?;
        session.holds("session", &[])?;
        let written = written_schedule(&schedule, expected.ok(), held.oracle.profile())?;
        if let Some(schedule) = &written {
            let counted = held.oracle.profile().counted_sum(schedule);
            same("the counted sum", counted, call.value as i64)?;
        }
        Ok(written)
    }

    pub fn inspect(&mut self, held: &Held, call: &InspectCall) -> Checked {
        self.try_inspect(held, call).map_err(|difference| {
            let schedule = elements(&call.schedule);
            held.explain(format!("{call:?}, setpoints {schedule:?}"), difference)
        })
    }

    fn try_inspect(&mut self, held: &Held, call: &InspectCall) -> Checked {
        let expected = held.oracle.inspect(call);
        let mut session = self.lend_session(&held.bytes, call.session_length);
        let mut schedule = self.lend(&call.schedule);
        let (mut rule, mut place) = (LentNumber::new(), LentNumber::new());
        let number = entries::inspect(&mut session, &mut schedule, &mut rule, &mut place);
        self.answered(Entry::Inspect, number, &expected)?;
        if let Ok(found) = expected {
            self.tally.rule(found);
        }
        session.holds("session", &[])?;
        schedule.holds("schedule", &[])?;
        rule.holds("rule", expected.map_or(0, Rule::number))?;
        place.holds("place", expected.map_or(0, Rule::place))
    }
}

/// A written schedule keeps every present range and every rise; a list that is not written stays as
/// it was.
fn written_schedule(
    list: &Lent,
    present: Option<&Ranges>,
    profile: &Profile,
) -> Checked<Option<Vec<i64>>> {
    let Some(present) = present else {
        list.holds("schedule", &[])?;
        return Ok(None);
    };
    list.guarded("schedule")?;
    let schedule = elements(list.data());
    match first_broken(present, profile, &schedule) {
        Rule::Kept => Ok(Some(schedule)),
        broken => Err(format!("the schedule {schedule:?} breaks {broken:?}")),
    }
}
