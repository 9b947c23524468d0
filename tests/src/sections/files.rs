//! Files: written, read again, damaged, and written back where they can be read.

use crate::caller::Caller;
use crate::generate::{cuts, damage, length_near, profiles};
use crate::lent::{same, same_bytes, Checked};
use crate::oracle::calls::{
    unsigned_2, CutNumbers, OpenCall, ProfileLists, ReadFileCall, WriteFileCall,
};
use crate::oracle::file::{self, Contents};
use crate::oracle::profile::{Profile, KINDS};
use crate::oracle::session::Session;
use crate::oracle::{CUT_BYTES, DAYS_OFFSET, DAY_BYTES, HEADER_BYTES, MOST_CUTS};
use crate::random::Random;

pub fn case(caller: &mut Caller, random: &mut Random, _: usize) -> Checked {
    let contents = contents(random);
    if random.one_in(2) {
        write_damaged(caller, random, contents.clone())?;
    }
    let exact = file::bytes(&contents.lists, &contents.cuts);
    let call = WriteFileCall {
        lists: contents.lists.clone(),
        cuts: contents.cuts.clone(),
        file_length: length_near(random, exact.len()),
    };
    if let Some(written) = caller.write_file(&call)? {
        same_bytes("the file", &written, &exact)?;
        let read = read_back(caller, random, &written)?;
        same("the contents", read.as_ref(), Some(&contents))?;
    }
    for _ in 0..4 {
        let mut damaged = exact.clone();
        for _ in 0..=random.below(2) {
            damage_file(random, &mut damaged);
        }
        read_back(caller, random, &damaged)?;
        read_with_any_lists(caller, random, damaged)?;
    }
    Ok(())
}

/// A profile within the bounds and well-formed cuts; now and then as many as a file may have.
fn contents(random: &mut Random) -> Contents {
    let (profile, count) = match random.below(60) {
        0 => (profiles::large(random), MOST_CUTS),
        1 => (profiles::small(random), MOST_CUTS),
        2..=7 => (profiles::large(random), random.below(MOST_CUTS)),
        _ => (profiles::small(random), random.below(6)),
    };
    Contents {
        lists: ProfileLists::of(&profile),
        cuts: bytes_of_cuts(random, &profile, count),
    }
}

fn bytes_of_cuts(random: &mut Random, profile: &Profile, count: usize) -> Vec<u8> {
    let session = Session::open(&OpenCall::of(profile));
    let mut bytes = Vec::new();
    for _ in 0..count {
        let cut = match &session {
            Ok(session) => cuts::cut(random, session, false),
            Err(_) => any_cut(random, profile.ranges.days.len()),
        };
        bytes.extend_from_slice(&cut.bytes());
    }
    bytes
}

fn any_cut(random: &mut Random, days: usize) -> CutNumbers {
    let kind = random.pick(&KINDS);
    let (day, value) = if kind.is_of_total() {
        (0, random.between(-512_000, 2_048_000))
    } else {
        (random.below(days), random.between(-1_000, 4_000))
    };
    CutNumbers {
        kind: kind as usize,
        day,
        value: value as i32,
    }
}

/// Reads a file into long lists. Contents that the writer takes are written back byte for byte.
fn read_back(caller: &mut Caller, random: &mut Random, file: &[u8]) -> Checked<Option<Contents>> {
    let call = ReadFileCall {
        file: file.to_vec(),
        floors_length: 1_024 + random.below(3),
        ceilings_length: 1_024 + random.below(3),
        rises_length: 1_022 + random.below(3),
        cuts_length: 4_096 + random.below(3),
    };
    let Some(contents) = caller.read_file(&call)? else {
        return Ok(None);
    };
    let back = WriteFileCall {
        lists: contents.lists.clone(),
        cuts: contents.cuts.clone(),
        file_length: file.len() + random.below(4),
    };
    if let Some(written) = caller.write_file(&back)? {
        same_bytes("the file written back", &written, file)?;
    }
    Ok(Some(contents))
}

/// Lists around the lengths that the file's header asks for.
fn read_with_any_lists(caller: &mut Caller, random: &mut Random, file: Vec<u8>) -> Checked {
    let days = header_field(&file, 0).min(600);
    let cuts = header_field(&file, 2).min(600);
    let call = ReadFileCall {
        floors_length: length_near(random, 2 * days),
        ceilings_length: length_near(random, 2 * days),
        rises_length: length_near(random, 2 * days.saturating_sub(1)),
        cuts_length: length_near(random, CUT_BYTES * cuts),
        file,
    };
    caller.read_file(&call).map(|_| ())
}

fn write_damaged(caller: &mut Caller, random: &mut Random, mut contents: Contents) -> Checked {
    for _ in 0..=random.below(2) {
        match random.below(5) {
            0..=1 => damage::profile(random, &mut contents.lists),
            2..=3 => damage_cut(random, contents.lists.days, &mut contents.cuts),
            _ => damage_cuts_length(random, &mut contents.cuts),
        }
    }
    let file_length = DAYS_OFFSET + DAY_BYTES * contents.lists.days.min(513) + contents.cuts.len();
    let call = WriteFileCall {
        file_length: length_near(random, file_length),
        lists: contents.lists,
        cuts: contents.cuts,
    };
    caller.write_file(&call).map(|_| ())
}

fn damage_cut(random: &mut Random, days: usize, cuts: &mut [u8]) {
    if cuts.len() < CUT_BYTES {
        return;
    }
    let place = CUT_BYTES * random.below(cuts.len() / CUT_BYTES);
    let bytes = &mut cuts[place..place + CUT_BYTES];
    let mut cut = CutNumbers::of_bytes(bytes);
    damage::cut(random, days.min(1_000), &mut cut);
    bytes.copy_from_slice(&cut.bytes());
}

fn damage_cuts_length(random: &mut Random, cuts: &mut Vec<u8>) {
    let most = CUT_BYTES * MOST_CUTS;
    let length = match random.below(4) {
        0 => most + CUT_BYTES * (1 + random.below(3)),
        1 => most + random.below(2 * CUT_BYTES),
        _ => cuts.len() + random.below(CUT_BYTES),
    };
    cuts.resize(length, 0);
}

/// One fault in a file's bytes.
fn damage_file(random: &mut Random, file: &mut Vec<u8>) {
    let length = file.len();
    match random.below(11) {
        0 => file.truncate(random.below(length + 1)),
        1 => file.truncate(length.saturating_sub(1)),
        2 => file.push(random.next() as u8),
        3 => put_2(file, 0, random.pick(&[0, 1, 2, 512, 513, 65_535])),
        4 => put_2(file, 2, random.pick(&[0, 1, 2, 512, 513, 65_535])),
        5 => put_2(file, 4 + 2 * random.below(2), random.below(64) as u16),
        6 => damage_last_rise(random, file),
        7 => damage_file_cut(random, file),
        8 => put_first_day(random, file),
        9 => {
            let count = random.below(80);
            *file = random.bytes(count);
        }
        _ => {
            if length > 0 {
                let place = random.below(length);
                file[place] ^= 1 << random.below(8);
            }
        }
    }
}

fn put_2(file: &mut [u8], place: usize, value: u16) {
    if file.len() >= place + 2 {
        file[place..place + 2].copy_from_slice(&value.to_le_bytes());
    }
}

/// A first counted day in the profile or past it.
fn put_first_day(random: &mut Random, file: &mut [u8]) {
    let days = header_field(file, 0) as u16;
    let past = [days.saturating_sub(1), days, days.saturating_add(1), 65_535];
    put_2(file, HEADER_BYTES, random.pick(&past));
}

/// 0 where the file ends before it.
fn header_field(file: &[u8], place: usize) -> usize {
    if file.len() >= place + 2 {
        unsigned_2(file, place)
    } else {
        0
    }
}

fn damage_last_rise(random: &mut Random, file: &mut [u8]) {
    let end_of_days = DAYS_OFFSET + DAY_BYTES * header_field(file, 0);
    put_2(file, end_of_days - 2, random.pick(&[1, 256, 65_535]));
}

fn damage_file_cut(random: &mut Random, file: &mut [u8]) {
    let days = header_field(file, 0);
    let end_of_days = DAYS_OFFSET + DAY_BYTES * days;
    if let Some(cuts) = file.get_mut(end_of_days..) {
        damage_cut(random, days, cuts);
    }
}
