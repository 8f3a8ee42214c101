// Made of crates/loop_device/src/threads.rt, where the contracts are, by rust/generate.

//! The threads of a play: one for each hand, started and joined in one scope.

use crate::base::queue::Pass;
use crate::base::sleep::Wait;
use crate::base::thread;
use crate::base::thread::{Scope, Started, Threads};
use crate::base::vec::{AllocError, Global, Vec};
use crate::proved::loop_device::device::Device;
use crate::proved::loop_device::device_queue::DeviceQueue;
use crate::proved::loop_device::gate::Gate;
use crate::proved::loop_device::io::Log;
use crate::proved::loop_device::setup::Setup;
use crate::proved::loop_device::workers::{complete_all, submit_all, Faults, Worked};
use crate::proved::tag_queue::QueueHand;
use core::sync::atomic::Ordering::SeqCst;

type Handle<'s> = Started<'s, Worked>;

/// Carries out the log with the threads that the setup asks for, one for each hand: the first of them complete and the
/// others submit. All have ended when it returns. Returns the hands that came back: all but those of threads that could
/// not be started, which is a want of memory.
pub(crate) fn run_threads<G: Gate, R: Threads + Wait + Sync>(
    rt: &R,
    alloc: Global,
    log: &Log,
    gate: &G,
    device: &Device,
    hands: Vec<QueueHand<u64>>,
    pass: Pass<u32>,
    setup: Setup,
) -> Result<(Vec<QueueHand<u64>>, Faults), AllocError> {
    thread::scope(|scope| -> Result<(Vec<QueueHand<u64>>, Faults), AllocError> {
        let mut handles = Vec::with_capacity(alloc, hands.len())?;
        let mut back = Vec::with_capacity(alloc, hands.len())?;
        let started = start_all(scope, rt, log, gate, device, hands, pass, setup, &mut handles);
        if !started {
            device.stopped.store(true, SeqCst);
        }
        let mut faults = Faults {
            memory: !started,
            spurious: false,
        };
        let completers = setup.completers as usize;
        join_down_to(rt, completers, &mut handles, &mut back, &mut faults);
        device.closed.store(true, SeqCst);
        join_down_to(rt, 0, &mut handles, &mut back, &mut faults);
        Ok((back, faults))
    })
}

/// Starts the completers and then the submitters, up to the first that can't be started. Returns whether all were.
fn start_all<'s, G: Gate, R: Wait + Sync>(
    scope: &Scope<'s, '_>,
    rt: &'s R,
    log: &'s Log,
    gate: &'s G,
    device: &'s Device,
    hands: Vec<QueueHand<u64>>,
    mut pass: Pass<u32>,
    setup: Setup,
    handles: &mut Vec<Handle<'s>>,
) -> bool {
    for hand in hands {
        let number = handles.len().checked_sub(setup.completers as usize);
        let mine = pass_for(&device.queue, &mut pass);
        let started = scope.spawn(move || -> Worked { do_part(rt, log, gate, device, hand, mine, number, setup) });
        let Ok(handle) = started else {
            return false;
        };
        handles.push_reserved(handle);
    }
    true
}

/// Does the part of one thread, which completes, or submits its share if it has a number among the submitters.
fn do_part<G: Gate, W: Wait>(
    rt: &W,
    log: &Log,
    gate: &G,
    device: &Device,
    hand: QueueHand<u64>,
    pass: Pass<u32>,
    number: Option<usize>,
    setup: Setup,
) -> Worked {
    match number {
        Some(number) => {
            let submitters = setup.submitters as usize;
            submit_all(rt, log, gate, device, hand, pass, number, submitters).0
        }
        None => complete_all(rt, log, gate, device, hand, pass).0,
    }
}

/// A pass of its own for one more thread.
fn pass_for(queue: &DeviceQueue, pass: &mut Pass<u32>) -> Pass<u32> {
    queue.another(pass)
}

/// Joins the threads that were started last, up to those that are to be left, and collects the hands and the faults
/// that they return.
fn join_down_to<'s, R: Threads>(
    rt: &R,
    left: usize,
    handles: &mut Vec<Handle<'s>>,
    back: &mut Vec<QueueHand<u64>>,
    faults: &mut Faults,
) {
    while handles.len() > left {
        let Some(handle) = handles.pop() else {
            break;
        };
        let worked = handle.join(rt);
        faults.add(worked.faults);
        back.push_reserved(worked.hand);
    }
}
