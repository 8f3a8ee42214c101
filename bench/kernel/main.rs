//! What the workloads `pair`, `ring`, `full`, `handoff` and `batch` of `tag_bench` are set beside: the kernel's sbitmap_queue,
//! the C interface of this repository, its crate for Rust, DPDK's rte_mempool where it is installed, a bitmap alone, three queues of the free
//! tags, a list of them behind a lock, two locked steps on lines of the thread's own, and arithmetic alone.
//! `main WORKLOAD [--only NAME;..] [--threads N] [--depth N] [--rounds N]` prints a line of JSON a case, of all contenders or of those
//! named. Without `--cfg fetched` it lacks those that are downloaded: the kernel's, and the queues.
#[path = "../baseline/clock.rs"]
mod clock;
#[path = "../baseline/frame.rs"]
mod frame;
#[cfg(fetched)]
mod array_queue;
mod bitmap;
#[cfg(fetched)]
mod kernel;
mod limit;
mod lists;
mod loops;
#[cfg(mempool)]
mod mempool;
#[cfg(fetched)]
mod queues;
mod registers;
mod rust;
mod tag_c;

#[cfg(fetched)]
use crate::array_queue::Queue;
use crate::bitmap::Bitmap;
use crate::frame::{Case, Options};
#[cfg(fetched)]
use crate::kernel::Kernel;
use crate::limit::Limit;
use crate::lists::List;
use crate::loops::{Slots, Tags, Way, Workload};
#[cfg(mempool)]
use crate::mempool::Mempool;
#[cfg(fetched)]
use crate::queues::{Boost, FreeQueue, Moodycamel};
use crate::registers::Registers;
use crate::rust::{Cached, Rust, Uncached};
use crate::tag_c::{Beside, BesideCached, InPool, TagC};
use std::process::ExitCode;

/// Tags of the map, where no count is asked for.
const DEPTHS: [u32; 3] = [64, 1_024, 10_240];

fn main() -> ExitCode {
    let mut words = std::env::args().skip(1);
    let Some(workload) = words.next().and_then(|name| Workload::named(&name)) else {
        eprintln!("the workloads are pair, ring, full, handoff and batch");
        return ExitCode::from(2);
    };
    let mut words = words.peekable();
    let mut only = Vec::new();
    if words.next_if(|word| word == "--only").is_some() {
        let names = words.next().unwrap_or_default();
        only.extend(names.split(';').map(str::to_string));
    }
    let Some(options) = Options::read(words) else {
        eprintln!("an option is not known, or has no number above 0");
        return ExitCode::from(2);
    };
    for depth in DEPTHS {
        if options.depth.is_none() {
            run(workload, &options, &only, depth);
        }
    }
    if let Some(depth) = options.depth {
        run(workload, &options, &only, depth);
    }
    ExitCode::SUCCESS
}

fn run(workload: Workload, options: &Options, only: &[String], depth: u32) {
    for &threads in &options.threads {
        if workload.can_run(depth, threads) {
            let case = |hints| Setting {
                workload,
                depth,
                threads,
                hints,
                rounds: options.rounds,
                only,
            };
            #[cfg(fetched)]
            {
                case(Hints::Apart).measure::<Kernel>();
                case(Hints::FromZero).measure::<Kernel>();
            }
            case(Hints::Apart).measure::<TagC<InPool>>();
            case(Hints::FromZero).measure::<TagC<InPool>>();
            case(Hints::Apart).measure::<TagC<Beside>>();
            case(Hints::Apart).measure::<TagC<BesideCached>>();
            case(Hints::Apart).measure::<Rust<Uncached>>();
            case(Hints::Apart).measure::<Rust<Cached>>();
            #[cfg(mempool)]
            if Mempool::can_hold(depth, threads, workload.most_held(depth, threads)) {
                case(Hints::None).measure::<Mempool>();
            }
            case(Hints::Apart).measure::<Bitmap>();
            #[cfg(fetched)]
            {
                case(Hints::None).measure::<Queue>();
                case(Hints::None).measure::<FreeQueue<Boost>>();
                case(Hints::None).measure::<FreeQueue<Moodycamel>>();
            }
            case(Hints::None).measure::<List>();
            case(Hints::None).measure::<Limit>();
            if workload == Workload::Pair {
                case(Hints::None).measure::<Registers>();
            }
        }
    }
}

/// Where the first search of each thread begins.
#[derive(Clone, Copy, PartialEq, Eq)]
enum Hints {
    /// Each in a part of the map of its own.
    Apart,
    /// All at tag 0.
    FromZero,
    /// There are no hints.
    None,
}

/// One case of one contender.
#[derive(Clone, Copy)]
struct Setting<'a> {
    workload: Workload,
    depth: u32,
    threads: u32,
    hints: Hints,
    rounds: u64,
    /// Who is measured. All are, where nobody is named.
    only: &'a [String],
}

impl Setting<'_> {
    fn measure<T: Tags>(self) {
        if !self.only.is_empty() && !self.only.iter().any(|name| name == T::NAME) {
            return;
        }
        let stride = match self.hints {
            Hints::Apart => self.depth / self.threads,
            Hints::FromZero | Hints::None => 0,
        };
        let tags = T::open(self.depth, self.threads, stride);
        let slots = Slots::new(self.depth);
        let ways: Vec<Way> = (0..self.threads).map(|_| Way::default()).collect();
        let held = self.workload.held(self.depth, self.threads);
        let case = Case {
            contender: T::NAME,
            workload: self.workload.name(),
            name: self.name(),
            threads: self.threads,
        };
        case.measure(|index| {
            let mut user = tags.enter(index);
            match self.workload {
                Workload::Pair => tags.pairs(&mut user, &slots, self.rounds),
                Workload::Ring | Workload::Full => tags.ring(&mut user, &slots, held, self.rounds),
                Workload::Batch => tags.batches(&mut user, &slots, self.rounds),
                Workload::Handoff if index % 2 == 0 => {
                    loops::send(&tags, &mut user, &slots, &ways[index as usize], self.rounds)
                }
                Workload::Handoff => loops::receive(
                    &tags,
                    &mut user,
                    &slots,
                    &ways[index as usize - 1],
                    self.rounds,
                ),
            }
        });
        tags.close();
    }

    fn name(self) -> String {
        let depth = self.depth;
        match self.hints {
            Hints::Apart => format!("hints apart, depth {depth}"),
            Hints::FromZero => format!("hints from 0, depth {depth}"),
            Hints::None => format!("depth {depth}"),
        }
    }
}
