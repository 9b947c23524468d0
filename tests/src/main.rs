//! Links the static library `libcloverdrum.a`, calls its C entries at random, and compares every answer
//! with an independent implementation (module `oracle`).
//!
//!     cargo run --release --offline -- [SEED]
//!
//! `CLOVERDRUM_LIBRARY` names the directory of the archive when the program is built,
//! `../target/staticlib` if it is not set. The program ends with status 0 and a count of what was
//! called and answered, or with status 1 at the first difference, which it prints with the seed,
//! the case, the arguments, and what each side said; it also fails if some answer that the header
//! documents never occurred. The same seed gives the same calls and the same output.
#![deny(warnings, unsafe_code)]

mod caller;
#[allow(unsafe_code)]
mod entries;
mod generate;
mod lent;
mod oracle;
mod random;
mod sections;
mod tally;
mod watch;

use std::env;
use std::process::ExitCode;

use caller::Caller;
use lent::{same, Checked};
use random::Random;
use sections::SECTIONS;
use watch::Watch;

const DEFAULT_SEED: u64 = 1;

/// The whole run makes at least this many calls that are compared.
const LEAST_OPERATIONS: u64 = 200_000;

fn main() -> ExitCode {
    match seed().and_then(run) {
        Ok(()) => ExitCode::SUCCESS,
        Err(difference) => {
            println!("{difference}");
            ExitCode::FAILURE
        }
    }
}

fn seed() -> Checked<u64> {
    match env::args().nth(1) {
        None => Ok(DEFAULT_SEED),
        Some(text) => text.parse().map_err(|_| format!("{text} is no seed")),
    }
}

fn run(seed: u64) -> Checked {
    println!("seed {seed}");
    same(
        "the bytes of a session",
        entries::session_bytes(),
        oracle::SESSION_BYTES,
    )?;
    let watch = Watch::start(seed);
    let mut caller = Caller::new();
    for (number, section) in SECTIONS.iter().enumerate() {
        println!("{}: {} cases", section.name, section.cases);
        for case in 0..section.cases {
            watch.enter(section.name, case);
            let mut random = Random::for_case(seed, number, case);
            caller.start_case(random.next());
            (section.run)(&mut caller, &mut random, case).map_err(|difference| {
                format!("seed {seed}, {}, case {case}: {difference}", section.name)
            })?;
        }
    }
    print!("{}", caller.tally);
    caller.tally.complete()?;
    let operations = caller.tally.operations();
    if operations < LEAST_OPERATIONS {
        return Err(format!("only {operations} operations"));
    }
    println!("{operations} operations agree");
    Ok(())
}
