//! Queues of submitted tags, first come, first served.
//!
//! A queue has an order, and *tokens*: a pool of this library of its own, with as many of them as there are tags. A free token
//! stands for one queued tag, whichever that is. Each tag that is not in the queue has a token, which is posted. Who submits a
//! tag takes its token, posts the tag, pushes it, and gives the token back. Who wants the next tag gets a token, which entitles
//! it to one pop; the tag that it pops has this token from then on. So a wait for a queued tag is one for a token, by the waits
//! of the pool, and who gives a token back tells those that wait. Nobody else takes a queued tag: it is marked.

use crate::base::word::AtomicU32;
use crate::error::{Error, Result};
use crate::hand::Hand;
use crate::options::{Kind, Options};
use crate::pool::Pool;
use crate::sleep::Sleeper;
use crate::tag::Tag;
use alloc::vec::Vec;
use core::cell::OnceCell;
use core::sync::atomic::Ordering::SeqCst;

mod future;
mod marks;
mod next;
mod ring;

pub use future::NextAsync;
use marks::Marks;
use ring::Ring;

const MAX_QUEUES: u32 = 64;

/// The queues of a pool.
pub(crate) struct Queues {
    lines: Vec<Line>,
    marks: Marks,
    hands: u32,
    sleeper: &'static dyn Sleeper,
}

/// One of them.
pub(crate) struct Line {
    order: Ring,
    tokens: Pool,
    /// The token of each tag that is not in the queue. Who pops the tag puts it here.
    token_of: Vec<AtomicU32>,
}

impl Queues {
    pub fn open(options: &Options, sleeper: &'static dyn Sleeper) -> Result<Queues> {
        if options.queues > MAX_QUEUES {
            return Err(Error::BadQueueCount);
        }
        Queues::fill(options.queues, options.total, options.hands, sleeper)
    }

    /// As many queues, for another number of tags. None of these is in use.
    pub fn renewed(&self, total: u32) -> Result<Queues> {
        Queues::fill(self.lines.len() as u32, total, self.hands, self.sleeper)
    }

    fn fill(count: u32, total: u32, hands: u32, sleeper: &'static dyn Sleeper) -> Result<Queues> {
        let mut lines = Vec::new();
        lines.try_reserve_exact(count as usize).map_err(|_| Error::NoMemory)?;
        for _ in 0..count {
            lines.push(Line::open(total, hands, sleeper)?);
        }
        let marks = Marks::new(if count == 0 { 0 } else { total }, sleeper)?;
        Ok(Queues {
            lines,
            marks,
            hands,
            sleeper,
        })
    }

    /// Which tags are in one of them.
    #[inline]
    pub fn marks(&self) -> &Marks {
        &self.marks
    }

    /// How many wait in them.
    pub fn waiting(&self) -> u32 {
        self.lines.iter().map(|line| line.tokens.waiting()).sum()
    }

    /// Ends all waits, of which new queues have none.
    pub fn stop(&self) {
        self.lines.iter().for_each(|line| line.tokens.stop());
    }

    pub fn line(&self, queue: u32) -> Result<&Line> {
        self.lines.get(queue as usize).ok_or(Error::NoSuchQueue)
    }

    /// A queue, with that of these hands which is of its tokens.
    pub fn use_by<'a>(&'a self, hands: &'a TokenHands, queue: u32) -> Result<Use<'a>> {
        let line = self.line(queue)?;
        let place = &hands.places(self.lines.len())?[queue as usize];
        if place.get().is_none() {
            // There is one in the pool of tokens, as there was one in that of the tags.
            let joined = place.set(line.tokens.join()?);
            debug_assert!(joined.is_ok(), "the place was empty");
        }
        let hand = place.get().expect("a hand has joined");
        Ok(Use { line, hand })
    }
}

impl Line {
    /// An empty queue. Each tag has the token of its number.
    fn open(total: u32, hands: u32, sleeper: &'static dyn Sleeper) -> Result<Line> {
        let order = Ring::new(total, sleeper)?;
        let tokens = Pool::open_with_sleeper(&Options::new(total, hands), sleeper, |_| ())?;
        let mut token_of = Vec::new();
        token_of
            .try_reserve_exact(total as usize)
            .map_err(|_| Error::NoMemory)?;
        token_of.extend((0..total).map(AtomicU32::new));
        let hand = tokens.join()?;
        while let Some(token) = hand.get()? {
            let _ = token.post();
        }
        Ok(Line {
            order,
            tokens,
            token_of,
        })
    }

    /// The pool of its tokens.
    pub fn tokens(&self) -> Pool {
        self.tokens.same()
    }

    /// How many tags are queued: as many tokens are free.
    pub fn count(&self) -> u32 {
        let tokens = self.tokens.show(Kind::Ordinary);
        tokens.depth - tokens.busy
    }
}

/// The hands that a hand has of the tokens of each queue, from its first use of that on.
#[derive(Default)]
pub(crate) struct TokenHands(OnceCell<Vec<OnceCell<Hand>>>);

impl TokenHands {
    fn places(&self, queues: usize) -> Result<&[OnceCell<Hand>]> {
        if let Some(places) = self.0.get() {
            return Ok(places);
        }
        let mut places = Vec::new();
        places.try_reserve_exact(queues).map_err(|_| Error::NoMemory)?;
        places.resize_with(queues, OnceCell::new);
        Ok(self.0.get_or_init(|| places))
    }

    /// Those that have joined.
    pub fn joined(&self) -> impl Iterator<Item = &Hand> {
        self.0.get().into_iter().flatten().filter_map(OnceCell::get)
    }

    pub fn leave(&mut self) {
        self.0.take();
    }
}

/// A queue as one hand uses it.
#[derive(Clone, Copy)]
pub(crate) struct Use<'a> {
    line: &'a Line,
    hand: &'a Hand,
}

impl<'a> Use<'a> {
    /// Takes the token of a tag, for the tag's holder.
    pub fn take_token_of(self, tag: u32) -> Tag<'a> {
        let token = self.line.token_of[tag as usize].load(SeqCst);
        self.hand.take(token).expect("a tag that is held has its token")
    }

    /// Puts a posted tag at the end of the queue. Then its token is free.
    pub fn push(self, tag: u32, token: Tag<'a>) {
        self.line.order.push(tag);
        drop(token);
    }

    /// Takes the first tag out of the queue. The token stays with it.
    fn pop(self, token: Tag<'a>) -> u32 {
        let tag = self.line.order.pop();
        self.line.token_of[tag as usize].store(token.post(), SeqCst);
        tag
    }
}
