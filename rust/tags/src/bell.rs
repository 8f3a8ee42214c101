//! The bell of a pool: it knows where those who wait for a tag sleep, and wakes them when they were told of one.
//!
//! Who waits and who is told the proved berths say, of which each hand has one in each set of tags. A thread that sleeps
//! does so on the token of its hand for that set: whoever wakes it gives the token, and it sleeps only until it can take
//! that. So no order is needed between a look at the berth and the sleep, a limit or a stop is one more round of the wait,
//! and so is a token that is left over.
//!
//! All who wait for a tag of either set are counted together, from before they are listed until they are up. A call that
//! has made tags free loads the count afterwards, and if it is 0 it tells nobody: whoever is counted later tries each tag
//! after that load. The count is for reports, too; for threads that wait until tags are back, which have no berth; and for
//! the tags that hands keep. A hand that was told and is about to try is not listed; whoever clears a tag while it is
//! counted keeps none.
//!
//! If somebody is counted, the call tells those who wait for tags of the sets of which it made some free, and no others.
//! The proved call tells no more threads than make, with those that were told and are not up yet, as many as the set has
//! tags. So where many wait for few tags, a clear seldom wakes a thread that would find nothing.

use crate::allocator::Due;
use crate::base::word::AtomicU32;
use crate::gate::Gate;
use crate::lists::Lists;
use crate::options::{Kind, Options};
use crate::queue::Queue;
use crate::sets::BySet;
use crate::side::Side;
use crate::sleep::Sleeper;
use core::sync::atomic::Ordering::SeqCst;
use core::time::Duration;

/// What a pool and its hands share of who waits.
pub(crate) struct Bell {
    /// Apart, as each clear loads it.
    waiting: Apart<AtomicU32>,
    sides: BySet<Side>,
    /// Odd while waits are stopped.
    stops: AtomicU32,
    /// Opened when a tag came back while somebody waits.
    tags: Gate,
    /// Those who wait for the tags of a list.
    lists: Lists,
    /// Opened when a hand came back.
    hands: Gate,
    pub sleeper: &'static dyn Sleeper,
}

/// A value that shares its cache lines with no other.
#[repr(align(128))]
pub(crate) struct Apart<V>(pub V);

/// The number of the stops before a wait began: another one ends it, also if the pool was resumed since.
#[derive(Clone, Copy, Default, PartialEq)]
pub(crate) struct Stops(u32);

impl Bell {
    /// A bell for the hands of a pool, or `None` without memory. If there are no reserved tags, nobody waits for one; of
    /// ordinary ones a resize may make some.
    pub fn new(options: &Options, sleeper: &'static dyn Sleeper) -> Option<Bell> {
        let reserving = if options.reserved == 0 { 0 } else { options.hands };
        Some(Bell {
            waiting: Apart(AtomicU32::new(0)),
            sides: BySet::new(Side::new(options.hands, sleeper)?, Side::new(reserving, sleeper)?),
            stops: AtomicU32::new(0),
            tags: Gate::default(),
            lists: Lists::new(sleeper),
            hands: Gate::default(),
            sleeper,
        })
    }

    /// How many wait.
    #[inline]
    pub fn waiting(&self) -> &AtomicU32 {
        &self.waiting.0
    }

    /// Whether anybody waits. Load it after a tag came back.
    #[inline]
    pub fn is_awaited(&self) -> bool {
        self.waiting.0.load(SeqCst) > 0
    }

    /// Counts a future that is about to wait.
    pub fn count_future(&self) {
        self.waiting.0.fetch_add(1, SeqCst);
    }

    /// So many futures wait no more.
    pub fn count_less(&self, gone: usize) {
        if gone > 0 {
            self.waiting.0.fetch_sub(gone as u32, SeqCst);
        }
    }

    /// The futures that wait behind a hand for a tag of this kind, of which the pool has some.
    #[inline]
    pub fn queue(&self, kind: Kind, hand: usize) -> &Queue {
        self.sides[kind]
            .queue(hand)
            .expect("a hand waits only for a tag that there is")
    }

    /// All queues behind a hand.
    pub fn queues(&self, hand: usize) -> impl Iterator<Item = &Queue> {
        self.sides.iter().filter_map(move |(_, side)| side.queue(hand))
    }

    /// Where threads wait until all tags are back.
    pub fn tags(&self) -> &Gate {
        &self.tags
    }

    /// Where threads wait for the tags of a list.
    pub fn lists(&self) -> &Lists {
        &self.lists
    }

    /// Where threads wait for a hand.
    pub fn hands(&self) -> &Gate {
        &self.hands
    }

    /// Wakes those who were told. It calls wakers, which may do anything, so no lock that they may need is held
    /// meanwhile.
    #[inline]
    pub fn wake(&self, due: Due) {
        if !due.is_nobody() {
            self.wake_each(due);
        }
    }

    #[cold]
    fn wake_each(&self, due: Due) {
        for (kind, side) in self.sides.iter() {
            side.wake(due.told(kind), self.sleeper);
        }
    }

    /// Sleeps for a tag of this kind until the hand was woken, at most until the end.
    pub fn sleep(&self, kind: Kind, hand: usize, end: Option<Duration>) {
        self.sides[kind].sleep(hand, self.sleeper, end);
    }

    /// Ends all waits, and lets no other begin.
    pub fn stop(&self) {
        let stop = |stops: u32| (stops % 2 == 0).then(|| stops.wrapping_add(1));
        // A pool that is stopped stays so, and those who wait now are told so too.
        let _ = self.stops.fetch_update(SeqCst, SeqCst, stop);
        self.sides.iter().for_each(|(_, side)| side.stop(self));
        self.hands.open(self.sleeper);
    }

    /// Lets waits begin again.
    pub fn resume(&self) {
        let resume = |stops: u32| (stops % 2 == 1).then(|| stops.wrapping_add(1));
        // A pool that is not stopped stays so.
        let _ = self.stops.fetch_update(SeqCst, SeqCst, resume);
    }

    #[inline]
    pub fn is_stopped(&self) -> bool {
        self.stops.load(SeqCst) % 2 == 1
    }

    /// For a wait that begins now.
    pub fn stops(&self) -> Stops {
        Stops(self.stops.load(SeqCst))
    }

    /// Whether a stop has ended a wait that began then.
    pub fn has_ended(&self, begin: Stops) -> bool {
        self.is_stopped() || self.stops() != begin
    }
}

/// Returns the numbers of the bits that are 1, in ascending order.
pub(crate) fn numbers_in<W: IntoIterator<Item = u64>>(words: W) -> impl Iterator<Item = u32> {
    let firsts = (0..).step_by(64);
    firsts
        .zip(words)
        .flat_map(|(first, word)| ones(word).map(move |bit| first + bit as u32))
}

/// Returns which bits are 1, from the lowest on.
pub(crate) fn ones(mut word: u64) -> impl Iterator<Item = usize> {
    core::iter::from_fn(move || {
        let bit = (word != 0).then(|| word.trailing_zeros())?;
        word &= word - 1;
        Some(bit as usize)
    })
}
