// Made of crates/loop_device/src/playing.rt, where the contracts are, by rust/generate.

//! Plays a log: threads that share tags carry it out.

use crate::base::sleep::Wait;
use crate::base::sync::Mutex;
use crate::base::thread::Threads;
use crate::base::vec::{Global, Vec};
use crate::proved::loop_device::device::Device;
use crate::proved::loop_device::device_queue::DeviceQueue;
use crate::proved::loop_device::fault::PlayFault;
use crate::proved::loop_device::gate::Gate;
use crate::proved::loop_device::io::{Done, Log};
use crate::proved::loop_device::judging::verdict;
use crate::proved::loop_device::report::Report;
use crate::proved::loop_device::setup::Setup;
use crate::proved::loop_device::store::Store;
use crate::proved::loop_device::threads::run_threads;
use crate::proved::loop_device::workers::Faults;
use crate::proved::tag_model::Totals;
use crate::proved::tag_queue::{Options, Queue, QueueHand, MAX_CAP};
use core::sync::atomic::AtomicBool;

/// Carries out each I/O line of the log once, in threads that share tags, and joins them all. `Setup` is reported
/// before anything runs, and of several other faults the first in the order Memory, Spurious, Twice, Lost, Totals.
/// Memory also means that a thread could not be started; Totals means that they are not one tag got and given back for
/// each line.
pub fn play<G: Gate, R: Threads + Wait + Sync>(
    rt: &R,
    alloc: Global,
    log: &Log,
    setup: Setup,
    gate: &G,
) -> Result<Report, PlayFault> {
    if !setup.is_legal() {
        return Err(PlayFault::Setup);
    }
    let options = Options {
        reserved: setup.reserved,
        shift: setup.shift,
        ..Options::new(setup.total, setup.submitters + setup.completers)
    };
    // A legal setup is refused only if memory runs out.
    let Ok((tags, hands)) = Queue::open(alloc, options, MAX_CAP, 0u64) else {
        return Err(PlayFault::Memory);
    };
    play_under(rt, alloc, log, setup, gate, tags, hands)
}

/// Plays the log with these tags.
fn play_under<G: Gate, R: Threads + Wait + Sync>(
    rt: &R,
    alloc: Global,
    log: &Log,
    setup: Setup,
    gate: &G,
    tags: Queue<u64>,
    hands: Vec<QueueHand<u64>>,
) -> Result<Report, PlayFault> {
    let Ok((queue, pass)) = DeviceQueue::ruled(alloc, setup.queue as usize) else {
        return Err(PlayFault::Memory);
    };
    let device = Device {
        tags,
        queue,
        store: Mutex::new(Store::open(alloc)),
        stopped: AtomicBool::new(false),
        closed: AtomicBool::new(false),
    };
    let carried = run_threads(rt, alloc, log, gate, &device, hands, pass, setup);
    let Device {
        tags,
        queue: _,
        store,
        stopped: _,
        closed: _,
    } = device;
    let Ok((hands, faults)) = carried else {
        return Err(PlayFault::Memory);
    };
    let done = store.into_inner().into_history();
    // A hand is missing only if its thread could not be started.
    let Ok(totals) = Queue::gather(tags, hands) else {
        return Err(PlayFault::Memory);
    };
    judge(alloc, log, totals.tags, done, faults)
}

/// The outcome of the play, determined after the joins.
fn judge(alloc: Global, log: &Log, totals: Totals, done: Vec<Done>, faults: Faults) -> Result<Report, PlayFault> {
    let judged = verdict(alloc, log, done.as_slice());
    if faults.memory || judged == Err(PlayFault::Memory) {
        return Err(PlayFault::Memory);
    }
    if faults.spurious {
        return Err(PlayFault::Spurious);
    }
    match judged {
        Ok(()) => {}
        Err(fault) => return Err(fault),
    }
    let count = log.ios.len() as u64;
    let played = Totals {
        got: count,
        back: count,
        held: 0,
        posted: 0,
    };
    if totals != played {
        return Err(PlayFault::Totals);
    }
    Ok(Report { totals, done })
}
