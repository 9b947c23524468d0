//! The profile file: what the reader and the writer refuse and give.

use super::calls::{
    elements, signed_4, unsigned_2, CutNumbers, ProfileLists, ReadFileCall, WriteFileCall,
};
use super::causes::{refuse_if, Cause};
use super::{judging, CUT_BYTES, DAYS_OFFSET, DAY_BYTES, HEADER_BYTES, MOST_CUTS};

/// What a file holds; `cuts` has 8 bytes for each cut.
#[derive(Clone, PartialEq, Eq, Debug)]
pub struct Contents {
    pub lists: ProfileLists,
    pub cuts: Vec<u8>,
}

pub fn read(call: &ReadFileCall) -> Result<Contents, Cause> {
    let file = &call.file;
    layout(file)?;
    let contents = contents(file);
    let last_rise = unsigned_2(file, offset_of_cuts(contents.lists.days) - 2);
    refuse_if(last_rise != 0, Cause::LastRise)?;
    for cut in contents.cuts.chunks_exact(CUT_BYTES) {
        judging::cut_kind(&CutNumbers::of_bytes(cut))?;
    }
    let too_short = call.floors_length < contents.lists.floors.len()
        || call.ceilings_length < contents.lists.ceilings.len()
        || call.rises_length < contents.lists.rises.len()
        || call.cuts_length < contents.cuts.len();
    refuse_if(too_short, Cause::ListLength)?;
    Ok(contents)
}

/// 11 (under 18 bytes), 1, 11 (offsets, length).
fn layout(file: &[u8]) -> Result<(), Cause> {
    refuse_if(file.len() < DAYS_OFFSET, Cause::FileUnderHeader)?;
    let (days, cuts) = (unsigned_2(file, 0), unsigned_2(file, 2));
    judging::day_count(days)?;
    refuse_if(cuts > MOST_CUTS, Cause::CutCount)?;
    let wrong_offset =
        unsigned_2(file, 4) != DAYS_OFFSET || unsigned_2(file, 6) != offset_of_cuts(days);
    refuse_if(wrong_offset, Cause::FileOffset)?;
    let length = offset_of_cuts(days) + CUT_BYTES * cuts;
    refuse_if(file.len() != length, Cause::FileLength)
}

fn offset_of_cuts(days: usize) -> usize {
    DAYS_OFFSET + DAY_BYTES * days
}

fn contents(file: &[u8]) -> Contents {
    let days = unsigned_2(file, 0);
    let day_fields = file[DAYS_OFFSET..offset_of_cuts(days)].chunks_exact(DAY_BYTES);
    let field = |place: usize, count: usize| -> Vec<u8> {
        let fields = day_fields.clone().take(count);
        fields
            .flat_map(|day| [day[place], day[place + 1]])
            .collect()
    };
    Contents {
        lists: ProfileLists {
            days,
            floors: field(0, days),
            ceilings: field(2, days),
            rises: field(4, days - 1),
            total_floor: signed_4(file, 8),
            total_ceiling: signed_4(file, 12),
            first: unsigned_2(file, HEADER_BYTES),
        },
        cuts: file[offset_of_cuts(days)..].to_vec(),
    }
}

/// Bytes after the last whole cut are no cut: 4,097 bytes are 512 cuts and a wrong length.
pub fn write(call: &WriteFileCall) -> Result<Vec<u8>, Cause> {
    judging::day_count(call.lists.days)?;
    refuse_if(call.cuts.len() / CUT_BYTES > MOST_CUTS, Cause::CutCount)?;
    let whole_cuts = call.cuts.len().is_multiple_of(CUT_BYTES);
    refuse_if(!whole_cuts, Cause::ListLength)?;
    judging::profile(&call.lists)?;
    for cut in call.cuts.chunks_exact(CUT_BYTES) {
        judging::cut(call.lists.days, &CutNumbers::of_bytes(cut))?;
    }
    let file = bytes(&call.lists, &call.cuts);
    refuse_if(call.file_length < file.len(), Cause::OutputLength)?;
    Ok(file)
}

/// The bytes of a file.
pub fn bytes(lists: &ProfileLists, cuts: &[u8]) -> Vec<u8> {
    let mut file = Vec::new();
    let counts = [
        lists.days,
        cuts.len() / CUT_BYTES,
        DAYS_OFFSET,
        offset_of_cuts(lists.days),
    ];
    for count in counts {
        file.extend_from_slice(&(count as u16).to_le_bytes());
    }
    file.extend_from_slice(&lists.total_floor.to_le_bytes());
    file.extend_from_slice(&lists.total_ceiling.to_le_bytes());
    file.extend_from_slice(&(lists.first as u16).to_le_bytes());
    let (floors, ceilings) = (elements(&lists.floors), elements(&lists.ceilings));
    let rises = elements(&lists.rises);
    for day in 0..lists.days {
        let rise = rises.get(day).copied().unwrap_or(0);
        for point in [floors[day], ceilings[day], rise] {
            file.extend_from_slice(&(point as i16).to_le_bytes());
        }
    }
    file.extend_from_slice(cuts);
    file
}
