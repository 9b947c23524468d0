//! Random profiles, cuts and schedules, proper and damaged.

pub mod cuts;
pub mod damage;
pub mod profiles;
pub mod schedules;

use crate::random::Random;

/// The length of a list that should have `exact` bytes: mostly that, at times another.
pub fn length_near(random: &mut Random, exact: usize) -> usize {
    if random.one_in(8) {
        wrong_length(random, exact)
    } else {
        exact
    }
}

pub fn wrong_length(random: &mut Random, exact: usize) -> usize {
    match random.below(6) {
        0 => 0,
        1 => exact.saturating_sub(1),
        2 => exact.saturating_sub(2),
        3 => exact + 1,
        4 => exact + 2,
        _ => random.below(2 * exact + 2),
    }
}
