//! The sections of the test. Each runs a number of cases, and each case has its own random
//! generator.

mod files;
mod foreign;
mod lengths;
mod sessions;
mod sheets;
mod worked;

use crate::caller::Caller;
use crate::lent::Checked;
use crate::random::Random;

pub struct Section {
    pub name: &'static str,
    pub cases: usize,
    pub run: fn(&mut Caller, &mut Random, usize) -> Checked,
}

pub const SECTIONS: [Section; 8] = [
    Section {
        name: "profiles worked by hand",
        cases: worked::CASES,
        run: worked::case,
    },
    Section {
        name: "lengths of lists and sessions",
        cases: 40,
        run: lengths::case,
    },
    Section {
        name: "small sessions",
        cases: 30_000,
        run: sessions::small_case,
    },
    Section {
        name: "large sessions",
        cases: 4_000,
        run: sessions::large_case,
    },
    Section {
        name: "small sheets",
        cases: 20_000,
        run: sheets::small_case,
    },
    Section {
        name: "large sheets",
        cases: 400,
        run: sheets::large_case,
    },
    Section {
        name: "files",
        cases: 20_000,
        run: files::case,
    },
    Section {
        name: "foreign session bytes",
        cases: 1_000,
        run: foreign::case,
    },
];
