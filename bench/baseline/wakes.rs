//! The atomic steps of a clear's wakeups: a look at the active count, and a completion added and charged. A charge loads
//! wakeups and then completions, and where a batch is due makes one compare_exchange, at most 16 tries.
use crate::frame::{Case, Options};
use crate::steps::Line;
use std::hint::black_box;
use std::sync::atomic::Ordering::SeqCst;

/// Completions that one charge takes.
const BATCH: u64 = 8;

#[derive(Default)]
struct Book {
    completions: Line,
    wakeups: Line,
}

pub fn run(options: &Options) {
    for &threads in &options.threads {
        let active = Line::default();
        case("active", threads).measure(|_| look_often(&active, options.rounds));
        let book = Book::default();
        case("count", threads).measure(|_| count_often(&book, options.rounds));
    }
}

fn case(name: &str, threads: u32) -> Case<'static> {
    Case {
        contender: "atomics",
        workload: "wakes",
        name: name.to_string(),
        threads,
    }
}

#[inline(never)]
fn look_often(active: &Line, rounds: u64) -> u64 {
    for _ in 0..rounds {
        black_box(active.0.load(SeqCst));
    }
    rounds
}

#[inline(never)]
fn count_often(book: &Book, rounds: u64) -> u64 {
    for _ in 0..rounds {
        book.completions.0.fetch_add(1, SeqCst);
        charge(book);
    }
    rounds
}

fn charge(book: &Book) {
    for _ in 0..16 {
        let start = book.wakeups.0.load(SeqCst);
        if book.completions.0.load(SeqCst) < start + BATCH {
            return;
        }
        let charged = book.wakeups.0.compare_exchange(start, start + BATCH, SeqCst, SeqCst);
        if charged.is_ok() {
            return;
        }
    }
}
