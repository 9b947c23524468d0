//! Sheets of cuts, beside the oracle and beside single calls of the library.

use super::sessions::changed_days;
use super::{Caller, Held};
use crate::entries;
use crate::lent::{same_bytes, Checked, LentNumber};
use crate::oracle::calls::SheetCall;
use crate::oracle::session::{CutAnswer, Sheet};
use crate::tally::Entry;

impl Caller {
    /// What the sheet gave, if it was taken.
    pub fn sheet(&mut self, held: &mut Held, call: &SheetCall) -> Checked<Option<Sheet>> {
        self.try_sheet(held, call)
            .map_err(|difference| held.explain(format!("{call:?}"), difference))
    }

    fn try_sheet(&mut self, held: &mut Held, call: &SheetCall) -> Checked<Option<Sheet>> {
        let expected = held.oracle.sheet(call);
        let oracle = &held.oracle;
        self.search(oracle.profile(), oracle.cuts(), oracle.present())?;
        let mut session = self.lend_session(&held.bytes, call.session_length);
        let mut cuts = self.lend(&call.cuts);
        let mut answers = self.lend_room(call.answers_length);
        let mut changed = self.lend_room(call.changed_length);
        let mut count = LentNumber::new();
        let number = entries::cut_sheet(
            &mut session,
            &mut cuts,
            &mut answers,
            &mut changed,
            &mut count,
        );
        self.answered(Entry::CutSheet, number, &expected)?;
        cuts.holds("cuts", &[])?;
        let Ok(sheet) = expected else {
            answers.holds("answers", &[])?;
            changed_days(&changed, &count, &[])?;
            session.holds("session", &[])?;
            return Ok(None);
        };
        answers.holds("answers", &bytes_of_answers(&sheet.answers))?;
        changed_days(&changed, &count, &sheet.changed)?;
        session.guarded("session")?;
        let after = self.single_cuts(held, call, &sheet.answers)?;
        same_bytes("the session after single cuts", session.data(), &after)?;
        held.bytes = after;
        Ok(Some(sheet))
    }

    /// Makes the cuts of the sheet one by one, and gives the session's bytes then. Each is answered
    /// as in the sheet.
    fn single_cuts(
        &mut self,
        held: &Held,
        call: &SheetCall,
        answers: &[CutAnswer],
    ) -> Checked<Vec<u8>> {
        let mut session = self.lend(&held.bytes);
        for (cut, answer) in call.numbers().iter().zip(answers) {
            self.tally.in_sheet(answer.err());
            let mut changed = self.lend_room(2 * held.oracle.days());
            let mut count = LentNumber::new();
            let number = entries::cut(
                &mut session,
                cut.kind,
                cut.day,
                cut.value,
                &mut changed,
                &mut count,
            );
            self.answered(Entry::Cut, number, answer)?;
            count.holds("changed_days of a single cut", answer.unwrap_or(0))?;
        }
        session.guarded("session at single cuts")?;
        Ok(session.data().to_vec())
    }
}

/// The refusal in 2 bytes, then the number of changed days.
fn bytes_of_answers(answers: &[CutAnswer]) -> Vec<u8> {
    let fields = answers.iter().flat_map(|answer| match *answer {
        Ok(days) => [0, days as u16],
        Err(cause) => [cause.number() as u16, 0],
    });
    fields.flat_map(u16::to_le_bytes).collect()
}
