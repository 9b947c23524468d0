//! The independent implementation, written from the text of documents 01 and 02 and `include/cloverdrum.h`:
//! plain code over `i64` that computes every answer from the profile and the whole list of valid
//! cuts.

pub mod bisection;
pub mod calls;
pub mod causes;
pub mod exhaustive;
pub mod file;
pub mod judging;
pub mod profile;
pub mod session;

use std::ops::RangeInclusive;

pub const MOST_DAYS: usize = 512;
pub const MOST_CUTS: usize = 512;
pub const POINTS: RangeInclusive<i64> = -1_000..=4_000;
pub const RISES: RangeInclusive<i64> = -2_000..=2_000;
pub const TOTALS: RangeInclusive<i64> = -512_000..=2_048_000;
pub const SESSION_BYTES: usize = 5_142;
/// In a file the first counted day stands after the header, then the days.
pub const HEADER_BYTES: usize = 16;
pub const DAYS_OFFSET: usize = HEADER_BYTES + 2;
pub const DAY_BYTES: usize = 6;
pub const CUT_BYTES: usize = 8;
pub const ANSWER_BYTES: usize = 4;
