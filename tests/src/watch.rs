//! Ends the program if a case does not: a call that never returns is a difference too.

use std::process::exit;
use std::sync::{Arc, Mutex};
use std::thread::{sleep, spawn};
use std::time::Duration;

/// A case takes milliseconds.
const SECONDS: u64 = 60;

type Place = (&'static str, usize);

pub struct Watch {
    present: Arc<Mutex<Place>>,
}

impl Watch {
    pub fn start(seed: u64) -> Watch {
        let present = Arc::new(Mutex::new(("", 0)));
        let watched = Arc::clone(&present);
        spawn(move || loop {
            let before = *watched.lock().unwrap();
            sleep(Duration::from_secs(SECONDS));
            if *watched.lock().unwrap() == before {
                let (section, case) = before;
                println!("seed {seed}, {section}, case {case}: no end after {SECONDS} s");
                exit(1);
            }
        });
        Watch { present }
    }

    pub fn enter(&self, section: &'static str, case: usize) {
        *self.present.lock().unwrap() = (section, case);
    }
}
