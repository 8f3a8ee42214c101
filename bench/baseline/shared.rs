//! Gets and clears by threads: the search over plain atomics, and a free list behind a lock.
use crate::frame::{Case, Options};
use crate::search::{Sizes, Words, get};
use crate::steps::{Atomics, Steps, Sums, Word, new_words};
use std::marker::PhantomData;
use std::sync::Mutex;
use std::sync::atomic::Ordering::SeqCst;

/// Tags of the map where no count is asked for.
const DEPTH: u32 = 1_024;

/// Free tags that threads share.
trait Tags: Sync {
    const NAME: &'static str;
    fn open(depth: u32) -> Self;
    fn get(&self, hint: &mut u32) -> Option<u32>;
    /// Clears a tag that was got: by a put, or else by a give.
    fn clear<const PUT: bool>(&self, tag: u32);
}

/// The words of a map, with steps of one kind.
struct Map<S> {
    sizes: Sizes,
    words: Vec<Word>,
    steps: PhantomData<fn() -> S>,
}

impl<S: Steps> Words for &Map<S> {
    fn look(&mut self, word: u32) -> u64 {
        self.words[word as usize].word.0.load(SeqCst)
    }

    fn claim(&mut self, word: u32, bit: u64) -> u64 {
        S::or(&self.words[word as usize].word.0, bit)
    }

    fn sweep(&mut self, word: u32) -> bool {
        S::sweep(&self.words[word as usize])
    }
}

impl<S: Steps> Tags for Map<S> {
    const NAME: &'static str = S::NAME;

    fn open(depth: u32) -> Map<S> {
        let sizes = Sizes::of(depth);
        Map {
            sizes,
            words: new_words(sizes.words() as usize),
            steps: PhantomData,
        }
    }

    fn get(&self, hint: &mut u32) -> Option<u32> {
        let mut words = self;
        get(&mut words, self.sizes, hint)
    }

    fn clear<const PUT: bool>(&self, tag: u32) {
        let (word, bit) = self.sizes.place_of(tag);
        let at = &self.words[word as usize];
        if PUT {
            S::set(&at.cleared.0, bit);
        } else {
            S::clear(&at.word.0, bit);
        }
    }
}

/// A list of the free tags. It knows no hints, and one way to clear.
struct List(Mutex<Vec<u32>>);

impl Tags for List {
    const NAME: &'static str = "mutex list";

    fn open(depth: u32) -> List {
        List(Mutex::new((0..depth).rev().collect()))
    }

    fn get(&self, _hint: &mut u32) -> Option<u32> {
        self.0.lock().ok()?.pop()
    }

    fn clear<const PUT: bool>(&self, tag: u32) {
        if let Ok(mut free) = self.0.lock() {
            free.push(tag);
        }
    }
}

pub fn run(options: &Options) {
    run_tags::<Map<Atomics>>(options);
    run_tags::<Map<Sums>>(options);
    run_tags::<List>(options);
}

fn run_tags<T: Tags>(options: &Options) {
    run_clear::<T, true>(options, "put");
    run_clear::<T, false>(options, "give");
}

fn run_clear<T: Tags, const PUT: bool>(options: &Options, clear: &str) {
    let depth = options.depth.unwrap_or(DEPTH);
    for hints in ["apart", "from 0"] {
        for &threads in &options.threads {
            let stride = if hints == "apart" { depth / threads } else { 0 };
            let tags = T::open(depth);
            let case = Case {
                contender: T::NAME,
                workload: "shared",
                name: format!("get and {clear}, hints {hints}, depth {depth}"),
                threads,
            };
            case.measure(|index| pairs::<T, PUT>(&tags, index * stride, options.rounds));
        }
    }
}

/// Gets a tag and clears it, so many times. Answers how many tags it got.
#[inline(never)]
fn pairs<T: Tags, const PUT: bool>(tags: &T, first: u32, rounds: u64) -> u64 {
    let mut hint = first;
    let mut got = 0;
    for _ in 0..rounds {
        if let Some(tag) = tags.get(&mut hint) {
            tags.clear::<PUT>(tag);
            hint = tag;
            got += 1;
        }
    }
    got
}
