//! Claims of tags by their numbers, and clears: by a put with a sweep after each lap, or by a give.
use crate::frame::{Case, Options};
use crate::steps::{Atomics, Steps, Sums, Word, new_words};

/// Words of the map.
const WORDS: usize = 16;

/// Tags of one lap.
const TAGS: u32 = 16;

pub fn run(options: &Options) {
    run_steps::<Atomics>(options);
    run_steps::<Sums>(options);
}

fn run_steps<S: Steps>(options: &Options) {
    run_clear::<S, true>(options, "put");
    run_clear::<S, false>(options, "give");
}

fn run_clear<S: Steps, const PUT: bool>(options: &Options, clear: &str) {
    for stride in [64, TAGS] {
        for &threads in &options.threads {
            let words = new_words(WORDS);
            let laps = options.rounds.div_ceil(u64::from(TAGS));
            let case = Case {
                contender: S::NAME,
                workload: "map",
                name: format!("claim and {clear}, {stride} apart"),
                threads,
            };
            case.measure(|index| claim_often::<S, PUT>(&words, index * stride, laps));
        }
    }
}

/// Claims and clears the tags from the first on, lap by lap. Answers how many it won.
#[inline(never)]
fn claim_often<S: Steps, const PUT: bool>(words: &[Word], first: u32, laps: u64) -> u64 {
    let at = &words[(first >> 6) as usize];
    let mut won = 0;
    for _ in 0..laps {
        for tag in first..first + TAGS {
            let bit = 1u64 << (tag & 63);
            if S::or(&at.word.0, bit) & bit != 0 {
                continue;
            }
            won += 1;
            if PUT {
                S::set(&at.cleared.0, bit);
            } else {
                S::clear(&at.word.0, bit);
            }
        }
        if PUT {
            S::sweep(at);
        }
    }
    won
}
