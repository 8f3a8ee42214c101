//! The futures that wait behind one hand for tags of one set.

use crate::allocator::Held;
use crate::base::lock::Lock;
use crate::bell::Bell;
use crate::error::{Error, Result};
use crate::sleep::{or_end, Sleeper};
use alloc::collections::{BTreeMap, VecDeque};
use alloc::vec::Vec;
use core::task::Waker;

/// The futures that wait behind a hand for tags of one set. While one of them waits, the hand is listed, or was told of
/// a tag, or is in a call that will list it. Once it was told, the first of them was woken, which has it try for all of
/// them.
///
/// No code of the program's, such as a waker's, runs with the lock.
pub(crate) struct Queue {
    futures: Lock<Futures>,
}

#[derive(Default)]
struct Futures {
    /// The number of the future whose wait began last.
    last: u64,
    /// Those that wait, in the order in which their waits began.
    waiting: VecDeque<Queued>,
    /// A tag or an error for each that waits no longer and was not polled since.
    answers: BTreeMap<u64, Result<Held>>,
    /// Whether the hand was told of a tag since its last try for them.
    is_told: bool,
}

/// A future that waits.
pub(crate) struct Queued {
    pub number: u64,
    /// Until it is woken.
    pub waker: Option<Waker>,
}

impl Futures {
    fn find(&self, number: u64) -> Option<usize> {
        self.waiting.binary_search_by_key(&number, |it| it.number).ok()
    }
}

/// What a future finds when it is polled.
pub(crate) enum State {
    /// A tag or an error.
    Answered(Result<Held>),
    /// The hand was told of a tag, and has not tried since.
    Told,
    /// The hand is listed.
    Waiting,
}

/// What a future leaves behind that is dropped.
pub(crate) struct Left {
    /// The tag that it was to get.
    pub tag: Option<Held>,
    /// Whether the hand has to try for those that still wait, or waits no more as none does.
    pub is_hand_due: bool,
    /// Dropped without a lock.
    _waker: Option<Waker>,
}

impl Queue {
    pub fn new(sleeper: &'static dyn Sleeper) -> Queue {
        Queue {
            futures: Lock::new(Futures::default(), sleeper),
        }
    }

    /// Puts a future behind the others. Returns its number, and whether it is alone, so that it has to list the hand.
    pub fn join(&self, bell: &Bell, waker: Waker) -> (u64, bool) {
        let mut futures = self.futures.lock();
        let is_first = futures.waiting.is_empty();
        futures.last += 1;
        let number = futures.last;
        futures.waiting.push_back(Queued {
            number,
            waker: Some(waker),
        });
        bell.count_future();
        (number, is_first)
    }

    /// Gives a future this waker, if it still waits. Returns the one that is not needed.
    pub fn renew(&self, number: u64, waker: Waker) -> Option<Waker> {
        let mut futures = self.futures.lock();
        match futures.find(number) {
            Some(at) => futures.waiting[at].waker.replace(waker),
            None => Some(waker),
        }
    }

    /// Returns what a future finds, and takes its answer.
    pub fn look(&self, number: u64) -> State {
        let mut futures = self.futures.lock();
        match futures.answers.remove(&number) {
            Some(answer) => State::Answered(answer),
            None if futures.is_told => State::Told,
            None => State::Waiting,
        }
    }

    /// Removes a future that is dropped.
    pub fn leave(&self, bell: &Bell, number: u64) -> Left {
        let mut futures = self.futures.lock();
        let left = futures.find(number).and_then(|at| futures.waiting.remove(at));
        bell.count_less(usize::from(left.is_some()));
        let answer = futures.answers.remove(&number);
        Left {
            tag: answer.and_then(Result::ok),
            is_hand_due: futures.is_told || futures.waiting.is_empty(),
            _waker: left.and_then(|it| it.waker),
        }
    }

    pub fn is_empty(&self) -> bool {
        self.futures.lock().waiting.is_empty()
    }

    /// The hand tries now: of what it was told before it is told no more.
    pub fn hear(&self) {
        self.futures.lock().is_told = false;
    }

    /// Takes out the first future that waits, if one does, and answers it, unless that is `own`. Returns the answer if
    /// it was not used.
    pub fn answer_first(
        &self,
        bell: &Bell,
        answer: Result<Held>,
        own: Option<u64>,
    ) -> (Option<Queued>, Option<Result<Held>>) {
        let mut futures = self.futures.lock();
        let Some(first) = futures.waiting.pop_front() else {
            return (None, Some(answer));
        };
        bell.count_less(1);
        if own == Some(first.number) {
            return (Some(first), Some(answer));
        }
        futures.answers.insert(first.number, answer);
        (Some(first), None)
    }

    /// Wakes the first future that was not woken yet: its hand was told of a tag.
    pub fn tell(&self) {
        let mut futures = self.futures.lock();
        futures.is_told = true;
        let waker = futures.waiting.iter_mut().find_map(|it| it.waker.take());
        drop(futures);
        wake_all(waker);
    }

    /// Ends all waits by a stop, also those whose hand was told and has not tried since.
    pub fn stop(&self, bell: &Bell) {
        let mut futures = self.futures.lock();
        let stopped = core::mem::take(&mut futures.waiting);
        bell.count_less(stopped.len());
        let answers = stopped.iter().map(|it| (it.number, Err(Error::Stopped)));
        futures.answers.extend(answers);
        drop(futures);
        wake_all(stopped.into_iter().filter_map(|it| it.waker));
    }

    /// Empties the queue of a hand that leaves, as futures that were leaked are in it. Returns the tags that were for
    /// them.
    pub fn close(&self, bell: &Bell) -> Vec<Held> {
        let mut futures = self.futures.lock();
        let leaked = core::mem::take(&mut futures.waiting);
        bell.count_less(leaked.len());
        let answers = core::mem::take(&mut futures.answers);
        drop(futures);
        answers.into_values().filter_map(Result::ok).collect()
    }
}

/// Wakes futures. A waker that panics ends the program, as those after it would never be woken.
pub(crate) fn wake_all(wakers: impl IntoIterator<Item = Waker>) {
    for waker in wakers {
        or_end("a waker panicked", || waker.wake());
    }
}
