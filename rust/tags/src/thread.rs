//! A thread that sleeps until a future is ready.

use crate::gate::is_past;
use crate::sleep::{Sleeper, Token};
use alloc::sync::Arc;
use alloc::task::Wake;
use core::future::Future;
use core::pin::Pin;
use core::task::{Context, Poll, Waker};
use core::time::Duration;

/// Where a thread sleeps.
struct Sleeping {
    token: Token,
    sleeper: &'static dyn Sleeper,
}

impl Wake for Sleeping {
    fn wake(self: Arc<Self>) {
        self.token.give(self.sleeper);
    }
}

/// Polls a future on this thread until it is ready, or until this moment if there is one.
pub(crate) fn wait_for<F: Future + Unpin>(
    mut future: F,
    sleeper: &'static dyn Sleeper,
    end: Option<Duration>,
) -> Option<F::Output> {
    let sleeping = Arc::new(Sleeping {
        token: Token::new(),
        sleeper,
    });
    let waker = Waker::from(Arc::clone(&sleeping));
    loop {
        let answer = Pin::new(&mut future).poll(&mut Context::from_waker(&waker));
        if let Poll::Ready(value) = answer {
            return Some(value);
        }
        if is_past(sleeper, end) {
            return None;
        }
        sleeping.token.sleep(sleeper, end);
    }
}
