//! Reading and writing files.

use super::{unchanged_profile, Caller};
use crate::entries::{self, FileLists, FileNumbers};
use crate::lent::{Checked, LentNumber};
use crate::oracle::calls::{ReadFileCall, WriteFileCall};
use crate::oracle::file::{self, Contents};
use crate::oracle::CUT_BYTES;
use crate::tally::Entry;

impl Caller {
    /// The contents that were read, if any.
    pub fn read_file(&mut self, call: &ReadFileCall) -> Checked<Option<Contents>> {
        self.try_read_file(call)
            .map_err(|difference| format!("{call:?}\ndifference: {difference}"))
    }

    fn try_read_file(&mut self, call: &ReadFileCall) -> Checked<Option<Contents>> {
        let expected = file::read(call);
        let mut file = self.lend(&call.file);
        let mut lists = FileLists {
            floors: self.lend_room(call.floors_length),
            ceilings: self.lend_room(call.ceilings_length),
            rises: self.lend_room(call.rises_length),
            cuts: self.lend_room(call.cuts_length),
        };
        let mut numbers = FileNumbers {
            days: LentNumber::new(),
            cuts: LentNumber::new(),
            total_floor: LentNumber::new(),
            total_ceiling: LentNumber::new(),
            first: LentNumber::new(),
        };
        let number = entries::read_file(&mut file, &mut lists, &mut numbers);
        self.answered(Entry::ReadFile, number, &expected)?;
        file.holds("file", &[])?;
        read_contents(&lists, &numbers, expected.as_ref().ok())?;
        Ok(expected.ok())
    }

    /// The file that was written, if any.
    pub fn write_file(&mut self, call: &WriteFileCall) -> Checked<Option<Vec<u8>>> {
        self.try_write_file(call)
            .map_err(|difference| format!("{call:?}\ndifference: {difference}"))
    }

    fn try_write_file(&mut self, call: &WriteFileCall) -> Checked<Option<Vec<u8>>> {
        let expected = file::write(call);
        let mut profile = self.lend_profile(&call.lists);
        let mut cuts = self.lend(&call.cuts);
        let mut file = self.lend_room(call.file_length);
        let mut file_bytes = LentNumber::new();
        let number = entries::write_file(&mut profile, &mut cuts, &mut file, &mut file_bytes);
        self.answered(Entry::WriteFile, number, &expected)?;
        unchanged_profile(&profile)?;
        cuts.holds("cuts", &[])?;
        let written = expected.unwrap_or_default();
        file.holds("file", &written)?;
        file_bytes.holds("file_bytes", written.len())?;
        Ok((number == 0).then_some(written))
    }
}

/// The lists and numbers hold the file's contents, or nothing beside a refusal.
fn read_contents(lists: &FileLists, numbers: &FileNumbers, read: Option<&Contents>) -> Checked {
    let list = |of: fn(&Contents) -> &Vec<u8>| read.map_or(&[][..], |contents| of(contents));
    lists.floors.holds("floors", list(|c| &c.lists.floors))?;
    lists
        .ceilings
        .holds("ceilings", list(|c| &c.lists.ceilings))?;
    lists.rises.holds("rises", list(|c| &c.lists.rises))?;
    lists.cuts.holds("cuts", list(|c| &c.cuts))?;
    numbers
        .days
        .holds("days", read.map_or(0, |c| c.lists.days))?;
    let cuts = read.map_or(0, |c| c.cuts.len() / CUT_BYTES);
    numbers.cuts.holds("cuts_count", cuts)?;
    let least = read.map_or(0, |c| c.lists.total_floor);
    numbers.total_floor.holds("total_floor", least)?;
    let most = read.map_or(0, |c| c.lists.total_ceiling);
    numbers.total_ceiling.holds("total_ceiling", most)?;
    let first = read.map_or(0, |c| c.lists.first);
    numbers.first.holds("first_counted_day", first)
}
