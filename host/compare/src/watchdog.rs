//! Calls must end: a case that takes too long is reported.

use std::process;
use std::sync::atomic::{AtomicUsize, Ordering};
use std::sync::Arc;
use std::thread;
use std::time::Duration;

/// Many times what a case takes on a slow machine.
const LIMIT: Duration = Duration::from_secs(300);

pub struct Watchdog {
    case: Arc<AtomicUsize>,
}

impl Watchdog {
    pub fn new() -> Self {
        let case = Arc::new(AtomicUsize::new(0));
        let watched = Arc::clone(&case);
        thread::spawn(move || watch(&watched));
        Watchdog { case }
    }

    /// Says which case has begun.
    pub fn enter(&self, case: usize) {
        self.case.store(case, Ordering::Relaxed);
    }
}

impl Drop for Watchdog {
    /// Lets the watching end.
    fn drop(&mut self) {
        self.case.store(usize::MAX, Ordering::Relaxed);
    }
}

fn watch(case: &AtomicUsize) {
    let mut former = usize::MAX;
    loop {
        let present = case.load(Ordering::Relaxed);
        if present == usize::MAX {
            return;
        }
        if present == former {
            println!("case {present} does not end");
            process::exit(1);
        }
        former = present;
        thread::sleep(LIMIT);
    }
}
