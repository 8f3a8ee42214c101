//! The order in which tags were submitted to a queue.
//!
//! A ring of slots, with room for all tags. Who pushes or pops takes the next ticket, to which one slot belongs, and waits until
//! that is empty or filled for this ticket: for one that has taken a ticket before, and not come to its slot yet. So it seldom
//! waits, and sleeps only if that thread was interrupted just there.

use crate::base::word::Word;
use crate::bell::Apart;
use crate::error::{Error, Result};
use crate::gate::Gate;
use crate::sleep::Sleeper;
use alloc::vec::Vec;
use core::sync::atomic::Ordering::SeqCst;

pub(crate) struct Ring {
    /// How many tickets were taken for pushes, and for pops.
    pushes: Apart<Word>,
    pops: Apart<Word>,
    /// As many as a power of two, so that the last bits of a ticket tell its slot.
    slots: Vec<Word>,
    /// Opened when a slot has changed.
    changes: Gate,
    sleeper: &'static dyn Sleeper,
}

/// What is in the slot of a ticket: a tag's number and 1, or 0 before its push.
fn state(ticket: u64, content: u16) -> u64 {
    ticket << u16::BITS | u64::from(content)
}

impl Ring {
    /// A ring for so many tags, each of which is in it at most once.
    pub fn new(tags: u32, sleeper: &'static dyn Sleeper) -> Result<Ring> {
        let length = tags.next_power_of_two();
        let mut slots = Vec::new();
        slots.try_reserve_exact(length as usize).map_err(|_| Error::NoMemory)?;
        slots.extend((0..length).map(|ticket| Word::new(state(ticket.into(), 0))));
        Ok(Ring {
            pushes: Apart(Word::new(0)),
            pops: Apart(Word::new(0)),
            slots,
            changes: Gate::default(),
            sleeper,
        })
    }

    /// Puts a tag at the end.
    pub fn push(&self, tag: u32) {
        let ticket = self.pushes.0.fetch_add(1, SeqCst);
        self.wait_for(ticket, |content| content == 0);
        self.put(ticket, tag as u16 + 1);
    }

    /// Takes the first tag. More pushes have ended than pops begun.
    pub fn pop(&self) -> u32 {
        let ticket = self.pops.0.fetch_add(1, SeqCst);
        let content = self.wait_for(ticket, |content| content != 0);
        self.put(ticket + self.slots.len() as u64, 0);
        u32::from(content) - 1
    }

    fn slot(&self, ticket: u64) -> &Word {
        &self.slots[ticket as usize & (self.slots.len() - 1)]
    }

    fn put(&self, ticket: u64, content: u16) {
        self.slot(ticket).store(state(ticket, content), SeqCst);
        self.changes.open(self.sleeper);
    }

    /// Waits until the slot is that of this ticket, with such a content, and returns it.
    fn wait_for(&self, ticket: u64, is_wanted: impl Fn(u16) -> bool) -> u16 {
        self.changes.wait_a_moment(self.sleeper, || {
            let found = self.slot(ticket).load(SeqCst);
            let content = found as u16;
            (found == state(ticket, content) && is_wanted(content)).then_some(content)
        })
    }
}
