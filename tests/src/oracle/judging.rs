//! The checks that two entries share: of a profile at opening and in the writer of files, of a cut
//! at cutting and in the writer.

use super::calls::{elements, CutNumbers, ProfileLists};
use super::causes::{refuse_if, Cause};
use super::profile::{Cut, Profile, Range, Ranges, KINDS};
use super::{MOST_DAYS, POINTS, RISES, TOTALS};

pub fn day_count(days: usize) -> Result<(), Cause> {
    refuse_if(days == 0 || days > MOST_DAYS, Cause::DayCount)
}

/// The lists of a profile whose day count was judged before: 2, 3, 4, 5, 6, 13.
pub fn profile(lists: &ProfileLists) -> Result<Profile, Cause> {
    let wrong_length = lists.floors.len() != 2 * lists.days
        || lists.ceilings.len() != 2 * lists.days
        || lists.rises.len() != 2 * (lists.days - 1);
    refuse_if(wrong_length, Cause::ListLength)?;
    let profile = profile_of(lists);
    let Range { floor, ceiling } = profile.ranges.total;
    let (floors, ceilings) = (profile.ranges.floors(), profile.ranges.ceilings());
    let inside = |values: &[i64]| values.iter().all(|value| POINTS.contains(value));
    refuse_if(!inside(&floors) || !inside(&ceilings), Cause::Point)?;
    let rises_inside = profile.rises.iter().all(|rise| RISES.contains(rise));
    refuse_if(!rises_inside, Cause::Rise)?;
    let totals_inside = TOTALS.contains(&floor) && TOTALS.contains(&ceiling);
    refuse_if(!totals_inside, Cause::Total)?;
    let above = profile
        .ranges
        .days
        .iter()
        .any(|day| day.floor > day.ceiling);
    refuse_if(above || floor > ceiling, Cause::FloorAboveCeiling)?;
    refuse_if(lists.first >= lists.days, Cause::FirstDay)?;
    Ok(profile)
}

fn profile_of(lists: &ProfileLists) -> Profile {
    let (floors, ceilings) = (elements(&lists.floors), elements(&lists.ceilings));
    let days = floors.iter().zip(&ceilings);
    Profile {
        ranges: Ranges {
            days: days
                .map(|(&floor, &ceiling)| Range { floor, ceiling })
                .collect(),
            total: Range {
                floor: lists.total_floor as i64,
                ceiling: lists.total_ceiling as i64,
            },
        },
        rises: elements(&lists.rises),
        first: lists.first,
    }
}

/// 12: what the reader of files judges of a cut.
pub fn cut_kind(numbers: &CutNumbers) -> Result<(), Cause> {
    let kind = KINDS.get(numbers.kind).ok_or(Cause::UnknownKind)?;
    refuse_if(kind.is_of_total() && numbers.day != 0, Cause::DayOfTotalCut)
}

/// 12, 7, then 3 or 5: whether a cut is well-formed in a profile of so many days.
pub fn cut(days: usize, numbers: &CutNumbers) -> Result<Cut, Cause> {
    cut_kind(numbers)?;
    let kind = KINDS[numbers.kind];
    let value = numbers.value as i64;
    if kind.is_of_total() {
        refuse_if(!TOTALS.contains(&value), Cause::CutTotal)?;
    } else {
        refuse_if(numbers.day >= days, Cause::Day)?;
        refuse_if(!POINTS.contains(&value), Cause::CutPoint)?;
    }
    Ok(Cut {
        kind,
        day: numbers.day,
        value,
    })
}
