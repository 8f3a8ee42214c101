//! The token on which one thread sleeps.

use crate::base::word::AtomicU32;
use crate::gate::is_past;
use crate::sleep::{wake, Sleeper};
use core::sync::atomic::Ordering::SeqCst;
use core::time::Duration;

const NONE: u32 = 0;
const GIVEN: u32 = 1;
const ASLEEP: u32 = 2;

/// Given by whoever wakes the thread, and taken by it when a sleep ends. One that is left over ends the next sleep at once.
pub(crate) struct Token(AtomicU32);

impl Token {
    pub const fn new() -> Token {
        Token(AtomicU32::new(NONE))
    }

    /// Gives the token, and wakes the thread if it sleeps.
    pub fn give(&self, sleeper: &dyn Sleeper) {
        if self.0.swap(GIVEN, SeqCst) == ASLEEP {
            wake(sleeper, &self.0);
        }
    }

    /// Sleeps until the token is given, and takes it; or until the end.
    pub fn sleep(&self, sleeper: &dyn Sleeper, end: Option<Duration>) {
        loop {
            if self.0.swap(NONE, SeqCst) == GIVEN || is_past(sleeper, end) {
                return;
            }
            if self.0.compare_exchange(NONE, ASLEEP, SeqCst, SeqCst).is_ok() {
                sleeper.sleep(&self.0, ASLEEP, end);
            }
        }
    }
}

#[cfg(test)]
mod tests {
    use super::Token;
    use crate::base::word::AtomicU32;
    use crate::sleep::Sleeper;
    use core::sync::atomic::Ordering::SeqCst;
    use core::time::Duration;

    static TOKEN: Token = Token::new();
    static SLEEPS: AtomicU32 = AtomicU32::new(0);
    static WAKES: AtomicU32 = AtomicU32::new(0);

    /// Gives the token just before the sleep, when the time is asked for.
    struct Meddler;

    impl Sleeper for Meddler {
        fn sleep(&self, _: &AtomicU32, _: u32, _: Option<Duration>) {
            SLEEPS.fetch_add(1, SeqCst);
            TOKEN.give(self);
        }

        fn wake(&self, _: &AtomicU32) {
            WAKES.fetch_add(1, SeqCst);
        }

        fn now(&self) -> Duration {
            TOKEN.give(self);
            Duration::ZERO
        }
    }

    #[test]
    fn a_token_that_comes_before_the_sleep_ends_it() {
        let so_far = || (SLEEPS.load(SeqCst), WAKES.load(SeqCst));
        TOKEN.sleep(&Meddler, Some(Duration::from_secs(1)));
        assert_eq!(so_far(), (0, 0));
        TOKEN.sleep(&Meddler, None);
        assert_eq!(so_far(), (1, 1));
        TOKEN.give(&Meddler);
        TOKEN.give(&Meddler);
        TOKEN.sleep(&Meddler, None);
        assert_eq!(so_far(), (1, 1));
    }
}
