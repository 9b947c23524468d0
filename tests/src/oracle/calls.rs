//! What a caller hands to each entry. Of a list that is only written, its length in bytes is all
//! that counts.

use std::fmt;

use super::profile::{Cut, Profile};
use super::{CUT_BYTES, SESSION_BYTES};

/// A profile as numbers and lists of bytes.
#[derive(Clone, PartialEq, Eq)]
pub struct ProfileLists {
    pub days: usize,
    pub floors: Vec<u8>,
    pub ceilings: Vec<u8>,
    pub rises: Vec<u8>,
    pub total_floor: i32,
    pub total_ceiling: i32,
    pub first: usize,
}

impl ProfileLists {
    pub fn of(profile: &Profile) -> ProfileLists {
        let ranges = &profile.ranges;
        ProfileLists {
            days: ranges.days.len(),
            floors: bytes_of(&ranges.floors()),
            ceilings: bytes_of(&ranges.ceilings()),
            rises: bytes_of(&profile.rises),
            total_floor: ranges.total.floor as i32,
            total_ceiling: ranges.total.ceiling as i32,
            first: profile.first,
        }
    }
}

impl fmt::Debug for ProfileLists {
    fn fmt(&self, out: &mut fmt::Formatter) -> fmt::Result {
        writeln!(
            out,
            "days {}, total {}..{}, first counted day {}",
            self.days, self.total_floor, self.total_ceiling, self.first
        )?;
        let lists = [
            ("floors", &self.floors),
            ("ceilings", &self.ceilings),
            ("rises", &self.rises),
        ];
        for (name, bytes) in lists {
            writeln!(
                out,
                "  {name} ({} bytes): {:?}",
                bytes.len(),
                elements(bytes)
            )?;
        }
        Ok(())
    }
}

/// A cut as three numbers.
#[derive(Clone, Copy, PartialEq, Eq, Debug)]
pub struct CutNumbers {
    pub kind: usize,
    pub day: usize,
    pub value: i32,
}

impl CutNumbers {
    pub fn of(cut: &Cut) -> CutNumbers {
        CutNumbers {
            kind: cut.kind as usize,
            day: cut.day,
            value: cut.value as i32,
        }
    }

    /// The cut in 8 bytes of a file.
    pub fn of_bytes(bytes: &[u8]) -> CutNumbers {
        CutNumbers {
            kind: unsigned_2(bytes, 0),
            day: unsigned_2(bytes, 2),
            value: signed_4(bytes, 4),
        }
    }

    pub fn bytes(&self) -> [u8; CUT_BYTES] {
        let mut bytes = [0; CUT_BYTES];
        bytes[0..2].copy_from_slice(&(self.kind as u16).to_le_bytes());
        bytes[2..4].copy_from_slice(&(self.day as u16).to_le_bytes());
        bytes[4..8].copy_from_slice(&self.value.to_le_bytes());
        bytes
    }
}

#[derive(Clone, Debug)]
pub struct OpenCall {
    pub session_length: usize,
    pub lists: ProfileLists,
}

impl OpenCall {
    pub fn of(profile: &Profile) -> OpenCall {
        OpenCall {
            session_length: SESSION_BYTES,
            lists: ProfileLists::of(profile),
        }
    }
}

#[derive(Clone, Debug)]
pub struct CutCall {
    pub session_length: usize,
    pub cut: CutNumbers,
    pub changed_length: usize,
}

#[derive(Clone)]
pub struct SheetCall {
    pub session_length: usize,
    pub cuts: Vec<u8>,
    pub answers_length: usize,
    pub changed_length: usize,
}

impl SheetCall {
    /// The whole cuts of the list.
    pub fn numbers(&self) -> Vec<CutNumbers> {
        let cuts = self.cuts.chunks_exact(CUT_BYTES);
        cuts.map(CutNumbers::of_bytes).collect()
    }
}

impl fmt::Debug for SheetCall {
    fn fmt(&self, out: &mut fmt::Formatter) -> fmt::Result {
        write!(
            out,
            "a sheet: session {} bytes, cuts {}, answers {}, changed {}; {:?}",
            self.session_length,
            self.cuts.len(),
            self.answers_length,
            self.changed_length,
            self.numbers()
        )
    }
}

#[derive(Clone, Debug)]
pub struct ReadCall {
    pub session_length: usize,
    pub floors_length: usize,
    pub ceilings_length: usize,
}

#[derive(Clone, Debug)]
pub struct WriteDayCall {
    pub session_length: usize,
    pub day: usize,
    pub value: i32,
    pub schedule_length: usize,
}

#[derive(Clone, Debug)]
pub struct WriteTotalCall {
    pub session_length: usize,
    pub value: i32,
    pub schedule_length: usize,
}

#[derive(Clone, Debug)]
pub struct InspectCall {
    pub session_length: usize,
    pub schedule: Vec<u8>,
}

#[derive(Clone, Debug)]
pub struct ReadFileCall {
    pub file: Vec<u8>,
    pub floors_length: usize,
    pub ceilings_length: usize,
    pub rises_length: usize,
    pub cuts_length: usize,
}

#[derive(Clone, Debug)]
pub struct WriteFileCall {
    pub lists: ProfileLists,
    pub cuts: Vec<u8>,
    pub file_length: usize,
}

/// The signed elements of a list.
pub fn elements(bytes: &[u8]) -> Vec<i64> {
    let pairs = bytes.chunks_exact(2);
    pairs
        .map(|pair| i16::from_le_bytes([pair[0], pair[1]]) as i64)
        .collect()
}

pub fn bytes_of(elements: &[i64]) -> Vec<u8> {
    let low_and_high = elements
        .iter()
        .map(|&element| (element as i16).to_le_bytes());
    low_and_high.flatten().collect()
}

pub fn unsigned_2(bytes: &[u8], place: usize) -> usize {
    u16::from_le_bytes([bytes[place], bytes[place + 1]]) as usize
}

pub fn signed_4(bytes: &[u8], place: usize) -> i32 {
    i32::from_le_bytes(bytes[place..place + 4].try_into().unwrap())
}
