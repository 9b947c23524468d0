//! Calls the library and compares everything that can be observed with the oracle: the returned
//! number, the result numbers, every byte of every lent string and of the guards around it.

mod files;
mod schedules;
mod sessions;
mod sheets;

use crate::entries::LentProfile;
use crate::lent::{same, Checked, Lent};
use crate::oracle::calls::ProfileLists;
use crate::oracle::causes::Cause;
use crate::oracle::exhaustive;
use crate::oracle::profile::{Cut, Profile, Ranges};
use crate::oracle::session::Session;
use crate::random::Random;
use crate::tally::{Entry, Tally};

/// A session of the library and the oracle's session that it is compared with.
#[derive(Clone)]
pub struct Held {
    pub bytes: Vec<u8>,
    pub oracle: Session,
}

impl Held {
    fn explain(&self, call: String, difference: String) -> String {
        let opened = ProfileLists::of(self.oracle.profile());
        let (cuts, shown) = (self.oracle.cuts(), self.oracle.shown());
        let spent = self.oracle.is_spent();
        [
            call,
            format!("in a session opened with {opened:?}after the valid cuts {cuts:?}"),
            format!("in the oracle {shown:?}, spent: {spent}"),
            format!("difference: {difference}"),
        ]
        .join("\n")
    }
}

pub struct Caller {
    pub tally: Tally,
    random: Random,
}

impl Caller {
    pub fn new() -> Caller {
        Caller {
            tally: Tally::default(),
            random: Random::new(0),
        }
    }

    /// Starts a case: what fills the lent memory depends on the case alone.
    pub fn start_case(&mut self, seed: u64) {
        self.random = Random::new(seed);
    }

    pub fn lend(&mut self, data: &[u8]) -> Lent {
        Lent::new(data.to_vec(), self.random.below(64))
    }

    /// Random bytes, to be written over.
    pub fn lend_room(&mut self, length: usize) -> Lent {
        Lent::new(self.random.bytes(length), self.random.below(64))
    }

    /// A session's bytes; where the length is not theirs, the first of them, or all and zeros.
    fn lend_session(&mut self, bytes: &[u8], length: usize) -> Lent {
        let mut data = bytes.to_vec();
        data.resize(length, 0);
        self.lend(&data)
    }

    fn lend_profile(&mut self, lists: &ProfileLists) -> LentProfile {
        LentProfile {
            days: lists.days,
            floors: self.lend(&lists.floors),
            ceilings: self.lend(&lists.ceilings),
            rises: self.lend(&lists.rises),
            total_floor: lists.total_floor,
            total_ceiling: lists.total_ceiling,
            first: lists.first,
        }
    }

    /// The returned number is the oracle's.
    fn answered<T>(&mut self, entry: Entry, number: u8, expected: &Result<T, Cause>) -> Checked {
        let refusal = expected.as_ref().err().copied();
        self.tally.answer(entry, refusal);
        let of_oracle = refusal.map_or(0, Cause::number);
        same(
            &format!("the returned number ({refusal:?})"),
            number,
            of_oracle,
        )
    }

    /// The two kinds of oracle agree where the profile is small.
    fn search(&mut self, profile: &Profile, cuts: &[Cut], present: Option<&Ranges>) -> Checked {
        if !exhaustive::is_small(profile) {
            return Ok(());
        }
        self.tally.searched();
        let found = exhaustive::ranges(profile, cuts);
        if found.as_ref() == present {
            return Ok(());
        }
        Err(format!(
            "two oracles: exhaustive search finds {found:?}, bisection {present:?}"
        ))
    }
}

/// The lists of a profile are as they were lent.
fn unchanged_profile(profile: &LentProfile) -> Checked {
    profile.floors.holds("floors", &[])?;
    profile.ceilings.holds("ceilings", &[])?;
    profile.rises.holds("rises", &[])
}
