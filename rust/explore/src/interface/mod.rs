//! The plays by the interface of `tags`, whose words are those of the explorer too.

pub mod batches;
pub mod caches;
pub mod futures;
pub mod gates;
pub mod hands;
pub mod lists;
pub mod locks;
pub mod notes;
pub mod passing;
pub mod queues;
pub mod sets;
pub mod shared;
pub mod waits;

use crate::base::word::AtomicU32;
use crate::error::Result;
use crate::interface::sets::take_reserved;
use crate::memory::running;
use crate::options::{Kind, Options};
use crate::owned::OwnedTag;
use crate::scenarios::Scenario;
use crate::sleep::Sleeper;
use crate::steps::{fault, is_late, park, wake};
use crate::tag::Tag;
use std::time::Duration;

/// A pool, with who uses a tag as the value beside it: 0 is nobody.
type Pool = crate::pool::Pool<usize>;
type Hand = crate::hand::Hand<usize>;
type SharedHand = crate::shared::SharedHand<usize>;

/// Sleeps as the explorer decides. While the time is not up, no time passes.
struct Explored;

/// How long a thread waits that waits for a time only.
const LIMIT: Duration = Duration::from_secs(1);

impl Sleeper for Explored {
    fn sleep(&self, word: &AtomicU32, expected: u32, end: Option<Duration>) {
        park(word.address(), end.is_some(), || word.peek() == expected);
    }

    fn wake(&self, word: &AtomicU32) {
        wake(word.address(), usize::MAX);
    }

    /// Once the time is up, there is no clock any more: a wait that has a limit and begins then only tries.
    fn now(&self) -> Duration {
        if is_late() {
            Duration::MAX
        } else {
            Duration::ZERO
        }
    }

    /// Each thread has a processor of its own.
    fn processor(&self) -> usize {
        running().saturating_sub(1)
    }
}

fn open(options: &Options) -> Pool {
    open_with(options, &Explored)
}

fn open_with(options: &Options, sleeper: &'static dyn Sleeper) -> Pool {
    Pool::open_with_sleeper(options, sleeper, |_| 0).unwrap_or_else(|_| fault("the pool was not opened"))
}

fn join(pool: &Pool) -> Hand {
    pool.join().unwrap_or_else(|_| fault("a hand did not join"))
}

/// Opens a pool, and has all hands join.
fn stage(options: &Options) -> (Pool, Vec<Hand>) {
    stage_with(options, &Explored)
}

fn stage_with(options: &Options, sleeper: &'static dyn Sleeper) -> (Pool, Vec<Hand>) {
    let pool = open_with(options, sleeper);
    let hands = (0..options.hands).map(|_| join(&pool)).collect();
    (pool, hands)
}

/// Takes all ordinary tags.
fn take_all(hand: &Hand) -> Vec<Tag<'_, usize>> {
    std::iter::from_fn(|| hand.get().ok().flatten()).collect()
}

/// Closes a pool whose hands have all left. No tag was lost.
fn close(pool: Pool) {
    let hand = join(&pool);
    let found = [
        (take_all(&hand), Kind::Ordinary),
        (take_reserved(&hand), Kind::Reserved),
    ];
    for (tags, kind) in &found {
        if tags.len() != pool.show(*kind).depth as usize {
            fault("a tag was lost");
        }
    }
    drop(found);
    drop(hand);
    let Ok(totals) = pool.close() else {
        fault("the pool was not closed");
    };
    if totals.got != totals.back {
        fault("the totals do not balance");
    }
}

/// A guard, which lends the value beside its tag.
trait Guard {
    fn user(&mut self) -> &mut usize;
}

impl Guard for Tag<'_, usize> {
    fn user(&mut self) -> &mut usize {
        self.value_mut()
    }
}

impl Guard for OwnedTag<usize> {
    fn user(&mut self) -> &mut usize {
        self.value_mut()
    }
}

/// Uses the tag with which a wait has to end.
fn used<G: Guard>(me: usize, answer: Result<G>) -> G {
    let Ok(mut tag) = answer else {
        fault("a wait ended otherwise");
    };
    for (old, new) in [(0, me), (me, 0)] {
        if std::mem::replace(tag.user(), new) != old {
            fault("a tag has two users");
        }
    }
    tag
}

/// Uses it and gives it back.
fn use_it(me: usize, answer: Result<impl Guard>) {
    drop(used(me, answer));
}

/// Uses the tag with which a wait for a time only may end, and gives it back.
fn use_in_time(me: usize, answer: Result<Option<impl Guard>>) {
    match answer.transpose() {
        Some(answer) => use_it(me, answer),
        None if is_late() => (),
        None => fault("a wait ended too early"),
    }
}

/// Sleeps until there is a tag, so often, and gives it back.
fn sleep(scenario: Scenario, me: usize, hand: &Hand) {
    (0..scenario.rounds).for_each(|_| use_it(me, hand.get_blocking()));
}
