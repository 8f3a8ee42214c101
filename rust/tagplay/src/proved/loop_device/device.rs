// Made of crates/loop_device/src/device.rt, where the contracts are, by rust/generate.

//! The device of a play: what its threads share.

use crate::base::sync::Mutex;
use crate::proved::loop_device::device_queue::DeviceQueue;
use crate::proved::loop_device::store::Store;
use crate::proved::tag_queue::Queue;
use core::sync::atomic::AtomicBool;

/// What the threads of a play share, besides the log and the gate.
pub(crate) struct Device {
    /// A submitted line is in the slot of its tag.
    pub(crate) tags: Queue<u64>,
    /// Tags that are posted and not yet taken.
    pub(crate) queue: DeviceQueue,
    /// What was carried out.
    pub(crate) store: Mutex<Store>,
    /// Set if nothing more is to be submitted because a thread could not be started.
    pub(crate) stopped: AtomicBool,
    /// Set once all submitters have ended.
    pub(crate) closed: AtomicBool,
}
