// Made of crates/loop_device/src/workers.rt, where the contracts are, by rust/generate.

//! What the threads of a play do.

use crate::base::queue::Pass;
use crate::base::sleep::Wait;
use crate::base::thread;
use crate::proved::loop_device::device::Device;
use crate::proved::loop_device::device_queue::{pop, push, Closing, Drained, Popped};
use crate::proved::loop_device::fault::PlayFault;
use crate::proved::loop_device::gate::Gate;
use crate::proved::loop_device::io::Log;
use crate::proved::loop_device::request::{complete, finish};
use crate::proved::tag_queue::{Queue, QueueHand, WaitFault};
use core::sync::atomic::Ordering::SeqCst;

/// Faults that threads ran into and that the store's history does not show.
#[derive(Clone, Copy, Debug, PartialEq, Eq)]
pub(crate) struct Faults {
    /// Memory ran out for a line, or a thread could not be started.
    pub(crate) memory: bool,
    /// A tag was handed on that is not posted or has no I/O line in its slot.
    pub(crate) spurious: bool,
}

impl Faults {
    /// No faults so far.
    pub(crate) fn none() -> Faults {
        Faults {
            memory: false,
            spurious: false,
        }
    }

    /// Adds the faults of another thread.
    pub(crate) fn add(&mut self, other: Faults) {
        self.memory |= other.memory;
        self.spurious |= other.spurious;
    }

    /// Notes what became of one line. A line that was not submitted is missing from the history.
    fn note(&mut self, done: Result<u64, PlayFault>) {
        match done {
            Err(PlayFault::Memory) => self.memory = true,
            Err(PlayFault::Spurious) => self.spurious = true,
            _ => {}
        }
    }
}

/// What a thread returns.
pub(crate) struct Worked {
    pub(crate) hand: QueueHand<u64>,
    pub(crate) faults: Faults,
}

/// Completes what comes through the queue, until a pop finds nothing after the flag was read set.
pub(crate) fn complete_all<G: Gate, W: Wait>(
    rt: &W,
    log: &Log,
    gate: &G,
    device: &Device,
    mut hand: QueueHand<u64>,
    mut pass: Pass<u32>,
) -> (Worked, Drained, Pass<u32>) {
    let mut faults = Faults::none();
    for _ in rt.forever() {
        // The flag is read first, so that the pop finds what was pushed before it was set.
        let closing = Closing::read(&device.closed);
        match pop(rt, &device.queue, &mut pass, closing) {
            Popped::Tag(tag) => {
                let done = complete(rt, &device.tags, &mut hand, tag, log, &device.store, gate);
                faults.note(done);
            }
            Popped::Empty => thread::yield_now(),
            Popped::Last(drained) => return (Worked { hand, faults }, drained, pass),
        }
    }
    unreachable!()
}

/// Submits this thread's share of the I/O lines in order: number `number` of `submitters` threads, counted from 0, has
/// every `submitters`-th line, starting with the line at index `number`. If a thread could not be started, it leaves out
/// the rest and notes a want of memory.
pub(crate) fn submit_all<G: Gate, W: Wait>(
    rt: &W,
    log: &Log,
    gate: &G,
    device: &Device,
    mut hand: QueueHand<u64>,
    mut pass: Pass<u32>,
    number: usize,
    submitters: usize,
) -> (Worked, Pass<u32>) {
    let mut faults = Faults::none();
    for (index, io) in log.ios.iter().enumerate() {
        if index % submitters != number {
            continue;
        }
        if device.stopped.load(SeqCst) {
            faults.memory = true;
            return (Worked { hand, faults }, pass);
        }
        let done = submit(rt, log, gate, device, &mut hand, &mut pass, io.line);
        faults.note(done);
    }
    (Worked { hand, faults }, pass)
}

/// Passes one line on to the completers, or completes it if the queue is full.
fn submit<G: Gate, W: Wait>(
    rt: &W,
    log: &Log,
    gate: &G,
    device: &Device,
    hand: &mut QueueHand<u64>,
    pass: &mut Pass<u32>,
    line: u64,
) -> Result<u64, PlayFault> {
    let Ok(tag) = post_line(rt, &device.tags, hand, line) else {
        return Err(PlayFault::Lost(line));
    };
    let Err(tag) = push(rt, &device.queue, pass, tag) else {
        gate.after_submit(line);
        return Ok(line);
    };
    let taken = device.tags.take(hand, tag);
    gate.after_submit(line);
    let Ok(()) = taken else {
        return Err(PlayFault::Spurious);
    };
    finish(rt, &device.tags, hand, tag, log, &device.store, gate)
}

/// Gets a tag, writes the line into its slot, and posts it.
fn post_line<W: Wait>(rt: &W, tags: &Queue<u64>, hand: &mut QueueHand<u64>, line: u64) -> Result<u32, WaitFault> {
    let tag = tags.get_blocking(rt, hand)?;
    let _former = tags.write_held(hand, tag, line);
    let Ok(()) = tags.post(hand, tag) else { unreachable!() };
    Ok(tag)
}
