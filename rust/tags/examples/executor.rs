//! Tasks that wait for tags under a small executor of two threads. Each task takes a tag, and awaits one while none is
//! free, submits a request under its number to a device, awaits the completion with the tag in its hand, and drops the
//! tag, which wakes a task that waits. The crate names no runtime: any other executor runs the same tasks.
use std::collections::VecDeque;
use std::error::Error;
use std::future::Future;
use std::pin::Pin;
use std::sync::atomic::{AtomicU64, AtomicUsize, Ordering::SeqCst};
use std::sync::mpsc::{channel, Receiver, Sender};
use std::sync::{Arc, Condvar, Mutex};
use std::task::{Context, Poll, Wake, Waker};
use std::thread;
use tags::{Options, Pool, SharedHand};

const WORKERS: usize = 2;
const TASKS: u64 = 32;
const REQUESTS: u64 = 500;
const TAGS: u32 = 4;

/// Runs tasks until all of them have ended.
#[derive(Default)]
struct Executor {
    ready: Mutex<VecDeque<Arc<Task>>>,
    changed: Condvar,
    /// Tasks that have not ended.
    left: AtomicUsize,
}

struct Task {
    future: Mutex<Pin<Box<dyn Future<Output = ()> + Send>>>,
    executor: Arc<Executor>,
}

impl Wake for Task {
    fn wake(self: Arc<Self>) {
        let executor = Arc::clone(&self.executor);
        executor.ready.lock().unwrap().push_back(self);
        executor.changed.notify_one();
    }
}

impl Executor {
    fn spawn(self: &Arc<Self>, future: impl Future<Output = ()> + Send + 'static) {
        self.left.fetch_add(1, SeqCst);
        let task = Task {
            future: Mutex::new(Box::pin(future)),
            executor: Arc::clone(self),
        };
        Arc::new(task).wake();
    }

    /// Returns a task that was woken, or `None` once all have ended.
    fn next(&self) -> Option<Arc<Task>> {
        let ready = self.ready.lock().unwrap();
        let is_idle = |ready: &mut VecDeque<_>| ready.is_empty() && self.left.load(SeqCst) > 0;
        let mut ready = self.changed.wait_while(ready, is_idle).unwrap();
        ready.pop_front()
    }

    fn work(&self) {
        while let Some(task) = self.next() {
            let waker = Waker::from(Arc::clone(&task));
            let mut future = task.future.lock().unwrap();
            if future.as_mut().poll(&mut Context::from_waker(&waker)).is_ready() {
                *future = Box::pin(std::future::pending());
                let _ready = self.ready.lock().unwrap();
                self.left.fetch_sub(1, SeqCst);
                self.changed.notify_all();
            }
        }
    }
}

/// Carries requests out, each under the number of a tag.
struct Device {
    requests: Sender<u32>,
    completions: [Mutex<Completion>; TAGS as usize],
    bytes: AtomicU64,
}

#[derive(Default)]
struct Completion {
    is_done: bool,
    waker: Option<Waker>,
}

/// The completion of the request under this number.
struct Done<'a> {
    device: &'a Device,
    number: u32,
}

impl Device {
    fn submit(&self, number: u32) -> Done<'_> {
        // The device listens as long as this is there.
        self.requests.send(number).unwrap();
        Done { device: self, number }
    }

    fn complete(&self, number: u32) {
        let mut completion = self.completions[number as usize].lock().unwrap();
        completion.is_done = true;
        if let Some(waker) = completion.waker.take() {
            waker.wake();
        }
    }
}

impl Future for Done<'_> {
    type Output = ();

    fn poll(self: Pin<&mut Self>, context: &mut Context<'_>) -> Poll<()> {
        let mut completion = self.device.completions[self.number as usize].lock().unwrap();
        if std::mem::take(&mut completion.is_done) {
            return Poll::Ready(());
        }
        completion.waker = Some(context.waker().clone());
        Poll::Pending
    }
}

async fn submit(hand: SharedHand, device: Arc<Device>, task: u64) -> tags::Result<()> {
    for request in 0..REQUESTS {
        let tag = hand.get_async().await?;
        tag.write(512 * (1 + (task + request) % 8));
        device.submit(tag.number()).await;
        device.bytes.fetch_add(tag.read(), SeqCst);
    }
    Ok(())
}

fn run(pool: &Pool, device: &Arc<Device>, requests: Receiver<u32>) -> tags::Result<()> {
    let executor = &Arc::new(Executor::default());
    let hands = [pool.join()?.into_shared(), pool.join()?.into_shared()];
    for task in 0..TASKS {
        let hand = hands[task as usize % hands.len()].clone();
        let device = Arc::clone(device);
        executor.spawn(async move { submit(hand, device, task).await.unwrap() });
    }
    thread::scope(|scope| {
        scope.spawn(move || {
            let all = (TASKS * REQUESTS) as usize;
            requests.iter().take(all).for_each(|number| device.complete(number));
        });
        for _ in 0..WORKERS {
            scope.spawn(move || executor.work());
        }
    });
    Ok(())
}

fn main() -> Result<(), Box<dyn Error>> {
    let pool = Pool::open(&Options::new(TAGS, 2))?;
    let (sender, requests) = channel();
    let device = Arc::new(Device {
        requests: sender,
        completions: Default::default(),
        bytes: AtomicU64::new(0),
    });
    run(&pool, &device, requests)?;
    let totals = pool.close()?;
    println!("bytes={}", device.bytes.load(SeqCst));
    println!("got={}\nback={}", totals.got, totals.back);
    println!("held={}\nposted={}", totals.held, totals.posted);
    Ok(())
}
