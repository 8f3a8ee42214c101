//! `hands CONTENDER THREADS HELD MILLISECONDS` has threads get and drop tags, each by a hand of its own (own), by hands that
//! they share, one for each processor (shared), or all by one hand behind a lock (mutex). A thread holds so many tags all the
//! while, and drops the oldest and gets another one, again and again; with none it gets a tag and drops it. It prints the
//! nanoseconds of a get and a drop, over all threads: of processor time under Linux (otherwise 0), and of the time that passed.
use std::collections::VecDeque;
use std::error::Error;
use std::sync::atomic::{AtomicBool, AtomicU64, Ordering::Relaxed};
use std::time::{Duration, Instant};
use std::{fs, hint, thread};
use tags::{Options, Pool};

const TAGS: u32 = 4096;

/// How the threads go on: until this is true, and how many pairs they made.
static IS_OVER: AtomicBool = AtomicBool::new(false);
static PAIRS: AtomicU64 = AtomicU64::new(0);

fn main() -> Result<(), Box<dyn Error>> {
    let words: Vec<String> = std::env::args().skip(1).collect();
    let [contender, threads, held, milliseconds] = words.as_slice() else {
        return Err("usage: hands CONTENDER THREADS HELD MILLISECONDS".into());
    };
    let (threads, held): (u32, usize) = (threads.parse()?, held.parse()?);
    let processors = u32::try_from(thread::available_parallelism()?.get())?.min(64);
    let count = match contender.as_str() {
        "own" => threads,
        "shared" => processors,
        _ => 1,
    };
    let pool = Pool::open(&Options::new(TAGS, count))?;
    let time = Duration::from_millis(milliseconds.parse()?);
    let begin = Instant::now();
    match contender.as_str() {
        "own" => run(threads, time, |pairs| {
            let hand = pool.join().unwrap();
            pairs.turn(held, || hand.get());
        }),
        "shared" => {
            let hands = pool.share(0)?;
            run(threads, time, |pairs| pairs.turn(held, || hands.get()));
        }
        _ => {
            let hand = pool.join()?.into_shared();
            run(threads, time, |pairs| pairs.turn(held, || hand.get()));
        }
    }
    let pairs = PAIRS.load(Relaxed) as f64;
    println!(
        "{:.1} {:.1}",
        processor_time() / pairs,
        begin.elapsed().as_nanos() as f64 / pairs
    );
    Ok(())
}

/// What one thread does.
struct Pairs(u64);

impl Pairs {
    fn turn<T>(&mut self, held: usize, get: impl Fn() -> tags::Result<Option<T>>) {
        let get = || get().unwrap().expect("no tag is free");
        let mut ring: VecDeque<T> = (0..held).map(|_| get()).collect();
        while !IS_OVER.load(Relaxed) {
            if held > 0 {
                drop(ring.pop_front());
                ring.push_back(hint::black_box(get()));
            } else {
                drop(hint::black_box(get()));
            }
            self.0 += 1;
        }
    }
}

fn run(threads: u32, time: Duration, work: impl Fn(&mut Pairs) + Sync) {
    thread::scope(|scope| {
        for _ in 0..threads {
            scope.spawn(|| {
                let mut pairs = Pairs(0);
                work(&mut pairs);
                PAIRS.fetch_add(pairs.0, Relaxed);
            });
        }
        thread::sleep(time);
        IS_OVER.store(true, Relaxed);
    });
}

/// The nanoseconds that this process had of the processors, by the scheduler's account of its threads that ended.
fn processor_time() -> f64 {
    // The 14th and the 15th field, of which the second one may have blanks: ticks of 10 ms.
    let stat = fs::read_to_string("/proc/self/stat").unwrap_or_default();
    let fields = stat.rsplit(')').next().unwrap_or_default().split_whitespace();
    let ticks: Vec<f64> = fields.skip(11).take(2).filter_map(|it| it.parse().ok()).collect();
    ticks.iter().sum::<f64>() * 1e7
}
