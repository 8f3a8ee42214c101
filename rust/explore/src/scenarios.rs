//! The scenarios: what the threads do, how many they are, on how many tags, and how often.

use crate::interface::{
    batches, caches, futures, gates, hands, lists, locks, notes, passing, queues, sets, shared, waits,
};
use crate::memory::MOST;
use crate::options::Options;
use crate::threads;

/// How many threads play, with how many tags, and how many rounds each.
#[derive(Clone, Copy)]
pub struct Scenario {
    pub threads: usize,
    pub tags: usize,
    pub rounds: usize,
}

impl Scenario {
    /// Options of a pool with a hand for each thread.
    pub fn options(self) -> Options {
        Options::new(self.tags as u32, self.threads as u32)
    }

    /// Whether two threads play for one tag, so that either of them waits for the other.
    pub fn is_least(self) -> bool {
        (self.threads, self.tags) == (2, 1)
    }
}

/// Opens what the threads share, runs them, and closes it.
pub type Play = fn(Scenario);

/// Reads a play with its threads, tags and rounds, and the most switches of a schedule if that is told too.
pub fn read(words: &str) -> Option<(Play, Scenario, Option<u32>)> {
    let (name, numbers) = words.split_once(' ')?;
    let (_, play, _) = PLAYS.iter().find(|it| it.0 == name)?;
    let numbers: Option<Vec<usize>> = numbers.split(' ').map(|it| it.parse().ok()).collect();
    let (threads, tags, rounds, most) = match numbers?[..] {
        [threads, tags, rounds] => (threads, tags, rounds, None),
        [threads, tags, rounds, most] => (threads, tags, rounds, Some(most as u32)),
        _ => return None,
    };
    let scenario = Scenario { threads, tags, rounds };
    // The play itself and a clock are coroutines, too.
    (2..MOST - 1).contains(&threads).then_some((*play, scenario, most))
}

/// Each play, with what is explored of it without arguments: threads, tags and rounds, and where all would take too long, the
/// most switches.
pub const PLAYS: [(&str, Play, &[&str]); 62] = [
    ("get", threads::get, &["2 1 1", "2 2 1", "2 1 2", "3 1 1", "3 2 1"]),
    ("sleep", threads::sleep, &["2 1 1", "2 2 1", "2 1 2", "3 1 1"]),
    ("cache", threads::cache, &["2 1 1", "2 2 1", "2 1 2", "3 1 1 3"]),
    ("post", threads::post, &["2 1 1", "3 1 1"]),
    ("hand-over", threads::hand_over, &["2 1 1", "3 2 1"]),
    ("wait", waits::wait, &["2 1 1", "2 2 1", "2 1 2", "3 1 1", "3 2 1"]),
    ("limit", waits::limit, &["2 1 1", "2 1 2", "3 1 1"]),
    ("stop", waits::stop, &["2 1 1", "3 1 1"]),
    ("resume", waits::resume, &["2 1 1", "3 1 1 3"]),
    ("batch", batches::batch, &["2 3 1", "2 3 2", "3 2 2"]),
    ("pairs", batches::pairs, &["2 4 1", "2 4 2"]),
    ("deal", batches::deal, &["2 1 1", "3 2 1"]),
    ("sift", batches::sift, &["3 2 1"]),
    ("pass", passing::pass, &["2 2 1", "3 2 1"]),
    ("overlap", passing::overlap, &["2 3 1", "3 3 1"]),
    ("keep", caches::keep, &["2 1 1", "2 2 1", "2 1 2", "3 1 1 3"]),
    ("hoard", caches::hoard, &["2 3 1", "3 4 1 2"]),
    ("await", futures::await_each, &["2 1 1", "2 2 1", "2 1 2", "3 1 1"]),
    ("meet", futures::meet, &["2 1 1", "3 1 1"]),
    ("linger", futures::linger, &["2 1 1", "3 1 1 3"]),
    ("cancel", futures::cancel, &["2 1 1", "2 2 1", "3 1 1 3"]),
    ("give-up", futures::give_up, &["2 1 1", "3 1 1"]),
    ("leak", futures::leak, &["2 1 1", "3 1 1"]),
    ("stop-futures", futures::stop, &["2 1 1", "3 1 1"]),
    ("resume-futures", futures::resume, &["2 1 1", "3 1 1 3"]),
    ("share", shared::share, &["2 1 1", "2 1 2", "3 1 1"]),
    ("share-futures", shared::share_futures, &["2 1 1", "2 1 2", "3 1 1"]),
    ("share-limit", shared::limit, &["3 1 1"]),
    ("meddle", shared::meddle, &["2 1 1", "3 1 1"]),
    ("hands", hands::sleep, &["2 1 1", "2 1 2", "3 1 1 3"]),
    ("hands-futures", hands::await_each, &["2 1 1", "2 1 2", "3 1 1 3"]),
    ("lock", locks::lock, &["2 1 1", "2 1 2", "3 1 1"]),
    ("drain", gates::drain, &["2 1 1", "2 2 1", "3 1 1"]),
    ("drain-limit", gates::drain_in_time, &["2 2 1", "3 2 1"]),
    ("shut-down", gates::shut_down, &["2 1 1", "3 1 1"]),
    ("list", lists::list, &["2 1 1", "2 2 1", "3 1 1"]),
    ("pick", lists::pick, &["3 2 1"]),
    ("pick-future", lists::pick_by_future, &["3 2 1"]),
    ("join", gates::join_each, &["2 1 1", "2 1 2", "3 1 1", "3 2 2 2"]),
    ("close", gates::close_after_all, &["2 1 1", "3 1 1"]),
    ("turn-away", gates::turn_away, &["2 1 1", "3 1 1"]),
    ("note", notes::note, &["2 1 1", "2 1 2", "3 1 1", "3 2 1"]),
    ("note-kept", notes::note_kept, &["2 1 1", "2 1 2", "3 1 1"]),
    ("apart", sets::apart, &["2 1 1", "3 1 1"]),
    ("in-turn", sets::in_turn, &["2 1 1", "2 1 2", "3 1 1 3"]),
    ("await-both", sets::await_both, &["2 1 1", "3 1 1 3"]),
    ("sift-reserved", sets::sift, &["3 2 1"]),
    ("swap", sets::swap, &["2 1 1", "3 1 1 3"]),
    ("submit", queues::submit_each, &["2 1 1", "2 2 1", "3 2 1 2"]),
    (
        "submit-futures",
        queues::submit_to_futures,
        &["2 1 1", "2 2 1", "3 2 1 2"],
    ),
    ("relay", queues::relay, &["2 1 1", "2 1 2", "2 2 1", "3 1 1 3"]),
    ("submit-limit", queues::limit, &["2 1 1"]),
    ("submit-stop", queues::stop, &["2 1 1", "3 1 1 2"]),
    ("submit-stop-futures", queues::stop_futures, &["2 1 1"]),
    ("past", queues::past, &["2 1 1", "2 2 1", "2 1 2", "3 1 1"]),
    ("past-batch", queues::past_batch, &["2 1 1", "2 2 1", "3 1 1"]),
    ("lap", queues::lap, &["3 3 1 2"]),
    ("submit-join", queues::join_each, &["2 1 1", "3 2 1 2"]),
    ("submit-keep", queues::keep, &["2 1 1"]),
    ("submit-keep-futures", queues::keep_futures, &["2 1 1"]),
    ("submit-pass", queues::pass, &["2 2 1"]),
    ("submit-give-up", queues::give_up, &["3 1 1 2"]),
];
