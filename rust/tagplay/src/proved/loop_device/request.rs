// Made of crates/loop_device/src/request.rt, where the contracts are, by rust/generate.

//! Completing one request.

use crate::base::sleep::Wait;
use crate::base::sync::Mutex;
use crate::proved::loop_device::fault::PlayFault;
use crate::proved::loop_device::gate::Gate;
use crate::proved::loop_device::io::{Io, Log};
use crate::proved::loop_device::store::Store;
use crate::proved::tag_queue::{Queue, QueueHand, Ring};

/// Completes the request of a posted tag: takes the tag, carries out the line in its slot, clears the tag and returns
/// the line. `Spurious` means that there is no such tag, that it was found not posted (a step in the hand's list), or
/// that the log has no I/O line with the number in its slot; `Memory` means that the store had no memory for the line.
/// A tag that was taken is cleared whatever became of its line.
pub fn complete<G: Gate, W: Wait>(
    rt: &W,
    tags: &Queue<u64>,
    hand: &mut QueueHand<u64>,
    tag: u32,
    log: &Log,
    store: &Mutex<Store>,
    gate: &G,
) -> Result<u64, PlayFault> {
    let Ok(()) = tags.take(hand, tag) else {
        return Err(PlayFault::Spurious);
    };
    finish(rt, tags, hand, tag, log, store, gate)
}

/// Carries out the line in the slot of a tag that the hand holds, and clears the tag, whatever became of the line.
pub(crate) fn finish<G: Gate, W: Wait>(
    rt: &W,
    tags: &Queue<u64>,
    hand: &mut QueueHand<u64>,
    tag: u32,
    log: &Log,
    store: &Mutex<Store>,
    gate: &G,
) -> Result<u64, PlayFault> {
    let line = tags.read_held(hand, tag);
    let carried = carry_out_by_number(rt, line, log, store, gate);
    let _woken = tags.clear_held::<Ring>(hand, tag);
    match carried {
        Ok(()) => Ok(line),
        Err(fault) => Err(fault),
    }
}

/// Carries out the line with this number, under the store's lock.
fn carry_out_by_number<G: Gate, W: Wait>(
    rt: &W,
    line: u64,
    log: &Log,
    store: &Mutex<Store>,
    gate: &G,
) -> Result<(), PlayFault> {
    let Some(io) = line_of(&log.ios, line) else {
        return Err(PlayFault::Spurious);
    };
    gate.before_complete(line);
    let mut store = store.lock(rt);
    add_line(&mut store, &io)
}

/// Carries out the line once on a store that is lent.
fn add_line(store: &mut Store, io: &Io) -> Result<(), PlayFault> {
    match store.carry_out(io) {
        Ok(_stamp) => Ok(()),
        Err(_) => Err(PlayFault::Memory),
    }
}

/// The I/O line with this number.
fn line_of(ios: &[Io], line: u64) -> Option<Io> {
    match ios.binary_search_by_key(&line, |io| io.line) {
        Ok(index) => Some(ios[index]),
        Err(_) => None,
    }
}
