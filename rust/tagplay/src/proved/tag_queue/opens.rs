// Made of crates/tag_queue/src/opens.rt, where the contracts are, by rust/generate.

//! Opens a queue with its hands.

use crate::base::vec::{AllocError, Global, Vec};
use crate::proved::tag_pool::{Hand, Kind, OpenFault, Options, Pool};
use crate::proved::tag_queue::fault::QueueOpenFault;
use crate::proved::tag_queue::hand::QueueHand;
use crate::proved::tag_queue::queue::Queue;
use crate::proved::tag_queue::room::Room;
use crate::proved::wake_book::{Announcement, Book, Groups, Sighting, Teller, Waiter, MAX_CAP};

impl<R: Copy> Queue<R> {
    /// Opens a queue over a new pool with these options, in which each hand may count up to `cap` completions, at most
    /// 2^56: past it the hand's clears give tags back as before, but count nothing and wake nobody. Each tag has a slot
    /// that contains `fill`. The hands are in the order of their numbers. The causes are tested in this order: those of
    /// `Pool::open`, namely `TotalTooLarge`, `ReservedTooLarge`, `ShiftTooLarge`, `CallerCount` and `LifeTooLong`; then
    /// `CapTooLarge`; then `Memory`.
    pub fn open(
        alloc: Global,
        options: Options,
        cap: u64,
        fill: R,
    ) -> Result<(Queue<R>, Vec<QueueHand<R>>), QueueOpenFault> {
        match Pool::open(alloc, options, fill) {
            Ok((pool, hands)) => Queue::over(alloc, pool, hands, options, cap),
            Err(fault) => Err(refusal(fault, cap)),
        }
    }

    /// Opens a queue as `open` does, refuses what `open` refuses, and places the hints of each hand (see
    /// `Pool::place`).
    pub fn open_placed(
        alloc: Global,
        options: Options,
        cap: u64,
        fill: R,
    ) -> Result<(Queue<R>, Vec<QueueHand<R>>), QueueOpenFault> {
        match Pool::open_placed(alloc, options, fill) {
            Ok((pool, hands)) => Queue::over(alloc, pool, hands, options, cap),
            Err(fault) => Err(refusal(fault, cap)),
        }
    }

    /// Opens a queue over this new pool.
    fn over(
        alloc: Global,
        pool: Pool<R>,
        hands: Vec<Hand<R>>,
        options: Options,
        cap: u64,
    ) -> Result<(Queue<R>, Vec<QueueHand<R>>), QueueOpenFault> {
        if cap > MAX_CAP {
            return Err(QueueOpenFault::CapTooLarge);
        }
        match lay_out(alloc, pool, hands, options, cap) {
            Ok(opened) => Ok(opened),
            Err(_) => Err(QueueOpenFault::Memory),
        }
    }
}

/// Returns why a queue with this cap can't be opened if its pool can't: too large a cap is told before memory.
fn refusal(fault: OpenFault, cap: u64) -> QueueOpenFault {
    match fault {
        OpenFault::Memory if cap > MAX_CAP => QueueOpenFault::CapTooLarge,
        _ => QueueOpenFault::from(fault),
    }
}

/// Allocates a book, groups and hands for arguments that are valid, so it fails only if memory runs out.
fn lay_out<R: Copy>(
    alloc: Global,
    pool: Pool<R>,
    hands: Vec<Hand<R>>,
    options: Options,
    cap: u64,
) -> Result<(Queue<R>, Vec<QueueHand<R>>), AllocError> {
    let batch = pool.layout(Kind::Ordinary).wake_batch(options.min_shallow);
    let Ok((book, tellers)) = Book::open(alloc, batch, options.hands, cap) else {
        return Err(AllocError);
    };
    let Ok((groups, waiters)) = Groups::open(alloc, options.hands) else {
        return Err(AllocError);
    };
    let hands = join(alloc, hands, tellers, waiters)?;
    let queue = Queue {
        pool,
        book,
        groups,
        batch,
        min_shallow: options.min_shallow,
        room: Room::open(alloc, options.hands)?,
    };
    Ok((queue, hands))
}

/// Puts the hands together from these parts, in the same order.
fn join<R>(
    alloc: Global,
    inners: Vec<Hand<R>>,
    tellers: Vec<Teller>,
    waiters: Vec<Waiter>,
) -> Result<Vec<QueueHand<R>>, AllocError> {
    let mut hands = Vec::new(alloc);
    let mut inners = inners.into_iter();
    let mut tellers = tellers.into_iter();
    let mut waiters = waiters.into_iter();
    while let Some(inner) = inners.next() {
        let Some(teller) = tellers.next() else { unreachable!() };
        let Some(waiter) = waiters.next() else { unreachable!() };
        hands.push(new_hand(inner, teller, waiter))?;
    }
    Ok(hands)
}

fn new_hand<R>(inner: Hand<R>, teller: Teller, waiter: Waiter) -> QueueHand<R> {
    let sighting = Sighting::none(&waiter, &inner);
    let announcement = Announcement::none(&waiter, &inner);
    QueueHand {
        teller,
        waiter,
        sighting,
        announcement,
        inner,
    }
}
