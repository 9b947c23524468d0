//! Opening, cutting and showing.

use super::{unchanged_profile, Caller, Held};
use crate::entries::{self, ReadNumbers};
use crate::lent::{same, same_bytes, Checked, Lent, LentNumber};
use crate::oracle::calls::{bytes_of, unsigned_2, CutCall, OpenCall, ReadCall};
use crate::oracle::causes::Cause;
use crate::oracle::profile::Ranges;
use crate::oracle::session::{profile_to_open, Session};
use crate::oracle::SESSION_BYTES;
use crate::tally::Entry;

impl Caller {
    pub fn open(&mut self, call: &OpenCall) -> Checked<Option<Held>> {
        self.try_open(call)
            .map_err(|difference| format!("{call:?}\ndifference: {difference}"))
    }

    fn try_open(&mut self, call: &OpenCall) -> Checked<Option<Held>> {
        let expected = Session::open(call);
        if let Ok(profile) = profile_to_open(call) {
            let opened = expected.as_ref().ok().map(Session::shown);
            self.search(&profile, &[], opened)?;
        }
        let room = self.random.bytes(call.session_length);
        let bytes = self.open_over(&room, call, &expected)?;
        let Ok(oracle) = expected else {
            return Ok(None);
        };
        let other_room: Vec<u8> = room.iter().map(|byte| !byte).collect();
        let again = self.open_over(&other_room, call, &Ok(oracle.clone()))?;
        same_bytes("a second opening's session", &again, &bytes)?;
        Ok(Some(Held { bytes, oracle }))
    }

    /// Opens into memory that holds `room`, and gives the session's bytes.
    fn open_over(
        &mut self,
        room: &[u8],
        call: &OpenCall,
        expected: &Result<Session, Cause>,
    ) -> Checked<Vec<u8>> {
        let mut session = self.lend(room);
        let mut profile = self.lend_profile(&call.lists);
        let number = entries::open(&mut session, &mut profile);
        self.answered(Entry::Open, number, expected)?;
        unchanged_profile(&profile)?;
        if expected.is_err() {
            session.holds("session", &[])?;
        }
        session.guarded("session")?;
        Ok(session.data().to_vec())
    }

    /// The changed days, as they are listed; none beside a refusal.
    pub fn cut(&mut self, held: &mut Held, call: &CutCall) -> Checked<Vec<usize>> {
        self.try_cut(held, call)
            .map_err(|difference| held.explain(format!("{call:?}"), difference))
    }

    fn try_cut(&mut self, held: &mut Held, call: &CutCall) -> Checked<Vec<usize>> {
        let before = held.oracle.shown().clone();
        let expected = held.oracle.cut(call);
        let oracle = &held.oracle;
        self.search(oracle.profile(), oracle.cuts(), oracle.present())?;
        let mut session = self.lend_session(&held.bytes, call.session_length);
        let mut changed = self.lend_room(call.changed_length);
        let mut count = LentNumber::new();
        let number = entries::cut(
            &mut session,
            call.cut.kind,
            call.cut.day,
            call.cut.value,
            &mut changed,
            &mut count,
        );
        self.answered(Entry::Cut, number, &expected)?;
        let days = expected.clone().unwrap_or_default();
        changed_days(&changed, &count, &days)?;
        session.guarded("session")?;
        let as_before = match expected {
            Ok(_) => before == *oracle.shown(),
            Err(cause) => cause != Cause::NoSchedule,
        };
        session_after(&session, as_before)?;
        if call.session_length == SESSION_BYTES {
            held.bytes = session.data().to_vec();
        }
        Ok(days)
    }

    pub fn read(&mut self, held: &Held, call: &ReadCall) -> Checked {
        self.try_read(held, call)
            .map_err(|difference| held.explain(format!("{call:?}"), difference))
    }

    fn try_read(&mut self, held: &Held, call: &ReadCall) -> Checked {
        let expected = held.oracle.read(call);
        let mut session = self.lend_session(&held.bytes, call.session_length);
        let mut floors = self.lend_room(call.floors_length);
        let mut ceilings = self.lend_room(call.ceilings_length);
        let mut numbers = ReadNumbers {
            total_floor: LentNumber::new(),
            total_ceiling: LentNumber::new(),
            spent: LentNumber::new(),
        };
        let number = entries::read(&mut session, &mut floors, &mut ceilings, &mut numbers);
        self.answered(Entry::Read, number, &expected)?;
        session.holds("session", &[])?;
        let shown = expected.ok();
        let list = |of: fn(&Ranges) -> Vec<i64>| shown.map_or(Vec::new(), |r| bytes_of(&of(r)));
        floors.holds("floors", &list(Ranges::floors))?;
        ceilings.holds("ceilings", &list(Ranges::ceilings))?;
        let (least, most, spent) = shown.map_or((0, 0, 0), |r| {
            let spent = held.oracle.is_spent() as u8;
            (r.total.floor as i32, r.total.ceiling as i32, spent)
        });
        numbers.total_floor.holds("total_floor", least)?;
        numbers.total_ceiling.holds("total_ceiling", most)?;
        numbers.spent.holds("spent", spent)
    }
}

/// The list begins with the changed days, in the same order, and is else as it was.
pub(super) fn changed_days(list: &Lent, count: &LentNumber<usize>, expected: &[usize]) -> Checked {
    count.holds("changed_days", expected.len())?;
    let places = 0..expected.len();
    let days: Vec<usize> = places
        .map(|place| unsigned_2(list.data(), 2 * place))
        .collect();
    same("the changed days", days.as_slice(), expected)?;
    list.holds("changed", &list.data()[..2 * expected.len()])
}

/// Sessions that hold the same have the same bytes, and those that don't have not.
fn session_after(session: &Lent, as_before: bool) -> Checked {
    let unchanged = session.holds("session", &[]);
    match (as_before, unchanged) {
        (true, unchanged) => unchanged,
        (false, Err(_)) => Ok(()),
        (false, Ok(())) => Err("session: the library left its bytes, the oracle's changed".into()),
    }
}
