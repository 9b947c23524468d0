//! The C entries of `include/cloverdrum.h`, and safe functions over them: every length that is
//! handed over is that of the lent memory.

use crate::lent::{Lent, LentNumber};

extern "C" {
    fn cloverdrum_session_bytes() -> usize;
    fn cloverdrum_open(
        session: *mut u8,
        session_length: usize,
        days: usize,
        floors: *const u8,
        floors_length: usize,
        ceilings: *const u8,
        ceilings_length: usize,
        rises: *const u8,
        rises_length: usize,
        total_floor: i32,
        total_ceiling: i32,
        first_counted_day: usize,
    ) -> u8;
    fn cloverdrum_cut(
        session: *mut u8,
        session_length: usize,
        kind: usize,
        day: usize,
        value: i32,
        changed: *mut u8,
        changed_length: usize,
        changed_days: *mut usize,
    ) -> u8;
    fn cloverdrum_cut_sheet(
        session: *mut u8,
        session_length: usize,
        cuts: *const u8,
        cuts_length: usize,
        answers: *mut u8,
        answers_length: usize,
        changed: *mut u8,
        changed_length: usize,
        changed_days: *mut usize,
    ) -> u8;
    fn cloverdrum_read(
        session: *const u8,
        session_length: usize,
        floors: *mut u8,
        floors_length: usize,
        ceilings: *mut u8,
        ceilings_length: usize,
        total_floor: *mut i32,
        total_ceiling: *mut i32,
        spent: *mut u8,
    ) -> u8;
    fn cloverdrum_write_day(
        session: *const u8,
        session_length: usize,
        day: usize,
        value: i32,
        schedule: *mut u8,
        schedule_length: usize,
    ) -> u8;
    fn cloverdrum_write_total(
        session: *const u8,
        session_length: usize,
        value: i32,
        schedule: *mut u8,
        schedule_length: usize,
    ) -> u8;
    fn cloverdrum_inspect(
        session: *const u8,
        session_length: usize,
        schedule: *const u8,
        schedule_length: usize,
        rule: *mut usize,
        place: *mut usize,
    ) -> u8;
    fn cloverdrum_read_file(
        file: *const u8,
        file_length: usize,
        floors: *mut u8,
        floors_length: usize,
        ceilings: *mut u8,
        ceilings_length: usize,
        rises: *mut u8,
        rises_length: usize,
        cuts: *mut u8,
        cuts_length: usize,
        days: *mut usize,
        cuts_count: *mut usize,
        total_floor: *mut i32,
        total_ceiling: *mut i32,
        first_counted_day: *mut usize,
    ) -> u8;
    fn cloverdrum_write_file(
        days: usize,
        floors: *const u8,
        floors_length: usize,
        ceilings: *const u8,
        ceilings_length: usize,
        rises: *const u8,
        rises_length: usize,
        total_floor: i32,
        total_ceiling: i32,
        first_counted_day: usize,
        cuts: *const u8,
        cuts_length: usize,
        file: *mut u8,
        file_length: usize,
        file_bytes: *mut usize,
    ) -> u8;
}

/// A profile's lists as they are lent, with its numbers.
pub struct LentProfile {
    pub days: usize,
    pub floors: Lent,
    pub ceilings: Lent,
    pub rises: Lent,
    pub total_floor: i32,
    pub total_ceiling: i32,
    pub first: usize,
}

/// The numbers that reading a session stores.
pub struct ReadNumbers {
    pub total_floor: LentNumber<i32>,
    pub total_ceiling: LentNumber<i32>,
    pub spent: LentNumber<u8>,
}

/// The lists that reading a file fills.
pub struct FileLists {
    pub floors: Lent,
    pub ceilings: Lent,
    pub rises: Lent,
    pub cuts: Lent,
}

/// The numbers that reading a file stores.
pub struct FileNumbers {
    pub days: LentNumber<usize>,
    pub cuts: LentNumber<usize>,
    pub total_floor: LentNumber<i32>,
    pub total_ceiling: LentNumber<i32>,
    pub first: LentNumber<usize>,
}

pub fn session_bytes() -> usize {
    unsafe { cloverdrum_session_bytes() }
}

pub fn open(session: &mut Lent, profile: &mut LentProfile) -> u8 {
    unsafe {
        cloverdrum_open(
            session.address(),
            session.len(),
            profile.days,
            profile.floors.address(),
            profile.floors.len(),
            profile.ceilings.address(),
            profile.ceilings.len(),
            profile.rises.address(),
            profile.rises.len(),
            profile.total_floor,
            profile.total_ceiling,
            profile.first,
        )
    }
}

pub fn cut(
    session: &mut Lent,
    kind: usize,
    day: usize,
    value: i32,
    changed: &mut Lent,
    changed_days: &mut LentNumber<usize>,
) -> u8 {
    unsafe {
        cloverdrum_cut(
            session.address(),
            session.len(),
            kind,
            day,
            value,
            changed.address(),
            changed.len(),
            changed_days.address(),
        )
    }
}

pub fn cut_sheet(
    session: &mut Lent,
    cuts: &mut Lent,
    answers: &mut Lent,
    changed: &mut Lent,
    changed_days: &mut LentNumber<usize>,
) -> u8 {
    unsafe {
        cloverdrum_cut_sheet(
            session.address(),
            session.len(),
            cuts.address(),
            cuts.len(),
            answers.address(),
            answers.len(),
            changed.address(),
            changed.len(),
            changed_days.address(),
        )
    }
}

pub fn read(
    session: &mut Lent,
    floors: &mut Lent,
    ceilings: &mut Lent,
    numbers: &mut ReadNumbers,
) -> u8 {
    unsafe {
        cloverdrum_read(
            session.address(),
            session.len(),
            floors.address(),
            floors.len(),
            ceilings.address(),
            ceilings.len(),
            numbers.total_floor.address(),
            numbers.total_ceiling.address(),
            numbers.spent.address(),
        )
    }
}

pub fn write_day(session: &mut Lent, day: usize, value: i32, schedule: &mut Lent) -> u8 {
    unsafe {
        cloverdrum_write_day(
            session.address(),
            session.len(),
            day,
            value,
            schedule.address(),
            schedule.len(),
        )
    }
}

pub fn write_total(session: &mut Lent, value: i32, schedule: &mut Lent) -> u8 {
    unsafe {
        cloverdrum_write_total(
            session.address(),
            session.len(),
            value,
            schedule.address(),
            schedule.len(),
        )
    }
}

pub fn inspect(
    session: &mut Lent,
    schedule: &mut Lent,
    rule: &mut LentNumber<usize>,
    place: &mut LentNumber<usize>,
) -> u8 {
    unsafe {
        cloverdrum_inspect(
            session.address(),
            session.len(),
            schedule.address(),
            schedule.len(),
            rule.address(),
            place.address(),
        )
    }
}

pub fn read_file(file: &mut Lent, lists: &mut FileLists, numbers: &mut FileNumbers) -> u8 {
    unsafe {
        cloverdrum_read_file(
            file.address(),
            file.len(),
            lists.floors.address(),
            lists.floors.len(),
            lists.ceilings.address(),
            lists.ceilings.len(),
            lists.rises.address(),
            lists.rises.len(),
            lists.cuts.address(),
            lists.cuts.len(),
            numbers.days.address(),
            numbers.cuts.address(),
            numbers.total_floor.address(),
            numbers.total_ceiling.address(),
            numbers.first.address(),
        )
    }
}

pub fn write_file(
    profile: &mut LentProfile,
    cuts: &mut Lent,
    file: &mut Lent,
    file_bytes: &mut LentNumber<usize>,
) -> u8 {
    unsafe {
        cloverdrum_write_file(
            profile.days,
            profile.floors.address(),
            profile.floors.len(),
            profile.ceilings.address(),
            profile.ceilings.len(),
            profile.rises.address(),
            profile.rises.len(),
            profile.total_floor,
            profile.total_ceiling,
            profile.first,
            cuts.address(),
            cuts.len(),
            file.address(),
            file.len(),
            file_bytes.address(),
        )
    }
}
