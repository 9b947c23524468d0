//! Arguments that an entry refuses. Several faults may fall together: the oracle says which one
//! counts.

use super::wrong_length;
use crate::oracle::calls::{CutCall, CutNumbers, OpenCall, ProfileLists, SheetCall};
use crate::oracle::{ANSWER_BYTES, CUT_BYTES, MOST_CUTS, SESSION_BYTES};
use crate::random::Random;

/// Counts and days that are no small numbers, some of them small in their low bytes.
const HUGE: [usize; 6] = [512, 513, 65_536, (1 << 32) + 1, 1 << 63, usize::MAX];

pub fn session_length(random: &mut Random) -> usize {
    random.pick(&[
        SESSION_BYTES - 1,
        SESSION_BYTES + 1,
        0,
        16,
        2 * SESSION_BYTES,
    ])
}

pub fn open(random: &mut Random, call: &mut OpenCall) {
    if random.one_in(16) {
        call.session_length = session_length(random);
    }
    for _ in 0..=random.below(3) {
        profile(random, &mut call.lists);
    }
}

/// One fault in a profile's lists.
pub fn profile(random: &mut Random, lists: &mut ProfileLists) {
    let point_out = [-1_001, 4_001, i16::MIN, i16::MAX];
    let rise_out = [-2_001, 2_001, i16::MIN, i16::MAX];
    let total_out = [-512_001, 2_048_001, i32::MIN, i32::MAX];
    match random.below(13) {
        0 => lists.days = random.pick(&HUGE),
        1 => {
            lists.days = [
                0,
                lists.days.saturating_add(1),
                lists.days.saturating_sub(1),
            ][random.below(3)]
        }
        2 => change_length(random, &mut lists.floors),
        3 => change_length(random, &mut lists.ceilings),
        4 => change_length(random, &mut lists.rises),
        5 => put_anywhere(random, &mut lists.floors, &point_out),
        6 => put_anywhere(random, &mut lists.ceilings, &point_out),
        7 => put_anywhere(random, &mut lists.rises, &rise_out),
        8 => lists.total_floor = random.pick(&total_out),
        9 => lists.total_ceiling = random.pick(&total_out),
        10 => lists.first = random.pick(&[lists.days, lists.days.saturating_add(1), 65_535]),
        11 => lists.first = random.pick(&HUGE),
        _ => cross(random, lists),
    }
}

fn change_length(random: &mut Random, list: &mut Vec<u8>) {
    let length = wrong_length(random, list.len());
    list.resize(length, 0);
}

fn put_anywhere(random: &mut Random, list: &mut [u8], values: &[i16]) {
    if list.len() >= 2 {
        let place = random.below(list.len() / 2);
        list[2 * place..2 * place + 2].copy_from_slice(&random.pick(values).to_le_bytes());
    }
}

/// Puts a floor above its ceiling.
fn cross(random: &mut Random, lists: &mut ProfileLists) {
    if random.one_in(2) {
        lists.total_floor = lists.total_ceiling.saturating_add(1);
        return;
    }
    let places = lists.floors.len().min(lists.ceilings.len()) / 2;
    if places > 0 {
        let place = random.below(places);
        let bytes = 2 * place..2 * place + 2;
        lists.floors[bytes.clone()].copy_from_slice(&4_000_i16.to_le_bytes());
        lists.ceilings[bytes].copy_from_slice(&3_999_i16.to_le_bytes());
    }
}

pub fn cut_call(random: &mut Random, days: usize, call: &mut CutCall) {
    if random.one_in(16) {
        call.session_length = session_length(random);
    }
    for _ in 0..=random.below(2) {
        if random.one_in(3) {
            call.changed_length = wrong_length(random, 2 * days);
        } else {
            cut(random, days, &mut call.cut);
        }
    }
}

/// Up to three faults in the lengths of a sheet; a list may also turn out longer than it has to be.
pub fn sheet_call(random: &mut Random, days: usize, call: &mut SheetCall) {
    let cuts = call.cuts.len();
    for _ in 0..=random.below(3) {
        match random.below(7) {
            0 if random.one_in(4) => call.session_length = session_length(random),
            0 => call.cuts.resize(CUT_BYTES * MOST_CUTS + random.below(8), 0),
            1 => {
                let past = random.pick(&[1, 1, 2, 100]);
                call.cuts.resize(CUT_BYTES * (MOST_CUTS + past), 0)
            }
            2 => call.cuts.resize(cuts + 1 + random.below(7), 0),
            3 => call.answers_length = (cuts / CUT_BYTES * ANSWER_BYTES).saturating_sub(1),
            4 => call.answers_length = wrong_length(random, cuts / CUT_BYTES * ANSWER_BYTES),
            5 => call.changed_length = 2 * days - 1,
            _ => call.changed_length = wrong_length(random, 2 * days),
        }
    }
}

/// One fault in a cut's numbers.
pub fn cut(random: &mut Random, days: usize, cut: &mut CutNumbers) {
    match random.below(6) {
        0 => cut.kind = random.pick(&[4, 5, 255, 256, 65_535]),
        1 => cut.kind = random.pick(&HUGE),
        2 => cut.day = random.pick(&[days, days + 1, 65_535]),
        3 => cut.day = random.pick(&HUGE),
        4 => cut.value = random.pick(&[-1_001, 4_001, -512_001, 2_048_001]),
        _ => cut.value = random.pick(&[i32::MIN, i32::MAX, 65_536, -65_536]),
    }
}
