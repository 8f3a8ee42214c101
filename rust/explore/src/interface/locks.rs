//! The lock of `tags` itself, for which the other plays have one that is taken in one step.

use crate::interface::Explored;
use crate::own_lock::Lock;
use crate::scenarios::Scenario;
use crate::steps::{fault, run};

/// Each thread takes the lock so often, and counts.
pub fn lock(scenario: Scenario) {
    let lock = Lock::new(0, &Explored);
    run(0..scenario.threads, |_, _| {
        for _ in 0..scenario.rounds {
            let mut count = lock.lock();
            let before = *count;
            *count = before + 1;
        }
    });
    if *lock.lock() != scenario.threads * scenario.rounds {
        fault("two threads held a lock at once");
    }
}
