//! The frame of each case: threads that work at once, several runs of them, and a line.
use crate::clock::processor_time;
use std::sync::atomic::{AtomicU64, Ordering::SeqCst};
use std::thread;
use std::time::{Duration, Instant};

/// Runs of which the median is taken.
const RUNS: usize = 7;

/// What the command line asks for, as `tag_bench` has it.
pub struct Options {
    /// Rounds of each thread in a run.
    pub rounds: u64,
    /// Tags of the map. None: as the workload has it.
    pub depth: Option<u32>,
    /// Counts of threads to be tried.
    pub threads: Vec<u32>,
}

impl Options {
    /// The options that these words give. None where one is not known, or has no number above 0.
    pub fn read(mut words: impl Iterator<Item = String>) -> Option<Options> {
        let mut options = Options {
            rounds: 2_000_000,
            depth: None,
            threads: vec![1, 2, 4],
        };
        while let Some(word) = words.next() {
            let number: u32 = words.next()?.parse().ok().filter(|&number| number > 0)?;
            match word.as_str() {
                "--rounds" => options.rounds = u64::from(number),
                "--depth" => options.depth = Some(number),
                "--threads" => options.threads = vec![number],
                _ => return None,
            }
        }
        Some(options)
    }
}

/// Who is measured, and at what. The workload and the case are named as `tag_bench` names them.
pub struct Case<'a> {
    pub contender: &'a str,
    pub workload: &'a str,
    pub name: String,
    pub threads: u32,
}

/// What one run took.
struct Run {
    /// By the clock.
    clock: Duration,
    /// Processor time of all threads together.
    processor: Duration,
    /// Whether the last thread began before the first one had ended.
    overlaps: bool,
}

/// The moments of a thread's work.
struct Span {
    begin: Instant,
    end: Instant,
}

impl Span {
    fn of(work: impl FnOnce()) -> Span {
        let begin = Instant::now();
        work();
        Span {
            begin,
            end: Instant::now(),
        }
    }
}

/// Whether there was a moment at which all threads worked.
fn do_overlap(spans: &[Span]) -> bool {
    let last_begin = spans.iter().map(|span| span.begin).max();
    last_begin < spans.iter().map(|span| span.end).min()
}

impl Case<'_> {
    /// Measures the work of the threads, each of which is given its index and answers how many operations it made.
    pub fn measure(&self, work: impl Fn(u32) -> u64 + Sync) {
        let done = AtomicU64::new(0);
        let runs: Vec<Run> = (0..RUNS).map(|_| self.time(&work, &done)).collect();
        self.warn_of(runs.iter().filter(|run| !run.overlaps).count());
        let operations = done.into_inner() / (RUNS as u64 * u64::from(self.threads));
        let sorted = |time: fn(&Run) -> Duration| {
            let mut times: Vec<f64> = runs.iter().map(|run| time(run).as_nanos() as f64).collect();
            times.sort_by(f64::total_cmp);
            move |run: usize| times[run] / operations.max(1) as f64
        };
        let clock = sorted(|run| run.clock);
        let processor = sorted(|run| run.processor);
        println!(
            "{{\"contender\":\"{}\",\"workload\":\"{}\",\"case\":\"{}\",\"threads\":{},\"ns\":{:.2},\"least\":{:.2},\"most\":{:.2},\"processor\":{:.2}}}",
            self.contender,
            self.workload,
            self.name,
            self.threads,
            clock(RUNS / 2),
            clock(0),
            clock(RUNS - 1),
            processor(RUNS / 2) / f64::from(self.threads)
        );
    }

    /// What a thread takes beside others is not measured where the others have not begun.
    fn warn_of(&self, apart: usize) {
        if apart > 0 {
            eprintln!(
                "{}, {}, {}, {} threads: in {apart} of {RUNS} runs the last thread began after the first had ended: take more rounds",
                self.contender, self.workload, self.name, self.threads
            );
        }
    }

    /// One run. As in `tag_bench`, the first thread is the caller's own.
    fn time(&self, work: &(impl Fn(u32) -> u64 + Sync), done: &AtomicU64) -> Run {
        let run = move |index: u32| {
            Span::of(|| {
                done.fetch_add(work(index), SeqCst);
            })
        };
        let processor = processor_time();
        let start = Instant::now();
        let spans: Vec<Span> = thread::scope(|scope| {
            let others: Vec<_> = (1..self.threads)
                .map(|index| scope.spawn(move || run(index)))
                .collect();
            let own = run(0);
            let others = others.into_iter().map(|it| it.join().expect("it ends"));
            others.chain([own]).collect()
        });
        Run {
            clock: start.elapsed(),
            processor: processor_time().saturating_sub(processor),
            overlaps: do_overlap(&spans),
        }
    }
}
