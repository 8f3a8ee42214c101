//! The plays by the proved calls, which this alone names: what the threads do, and what is checked of it.

use crate::base::vec::Global;
use crate::proved::tag_cache::Cache;
use crate::proved::tag_pool::{Hand, Kind, Options, Pool};
use crate::scenarios::Scenario;
use crate::stage::Access;
use crate::steps::{fault, run, sleepers, step};
use std::cell::Cell;

/// Who has a tag, as its holders say: 0 is nobody.
#[derive(Default)]
struct Owner(Cell<usize>);

impl Owner {
    fn change(&self, old: usize, new: usize) {
        step(self as *const Owner as usize, Access::Word);
        if self.0.replace(new) != old {
            fault("a tag has two owners");
        }
    }
}

/// What the threads share.
struct Common {
    tags: Pool<u64>,
    owners: Vec<Owner>,
    scenario: Scenario,
}

/// What a call answers that cannot be refused here.
fn given<T, E>(answer: Result<T, E>) -> T {
    answer.unwrap_or_else(|_| fault("a call was refused"))
}

impl Common {
    fn open(scenario: Scenario) -> (Common, Vec<Hand<u64>>) {
        let options = Options::new(scenario.tags as u32, scenario.threads as u32);
        let (tags, hands) = given(Pool::open(Global, options, 0u64));
        let owners = (0..scenario.tags).map(|_| Owner::default()).collect();
        let common = Common { tags, owners, scenario };
        (common, hands.into())
    }

    /// Closes the pool. All tags are back but for so many.
    fn close(self, hands: Vec<Hand<u64>>, kept: usize) {
        let totals = given(Pool::gather(self.tags, hands.into()));
        if totals.held != kept as u64 || totals.got != totals.back + totals.held {
            fault("the totals do not balance");
        }
    }

    /// Runs what each thread does with its hand, and closes the pool.
    fn play(self, mut hands: Vec<Hand<u64>>, kept: usize, does: fn(&Common, usize, &mut Hand<u64>)) {
        run(&mut hands, |me, hand| does(&self, me, hand));
        self.close(hands, kept);
    }

    /// Uses a tag that a thread has got.
    fn hold(&self, me: usize, hand: &mut Hand<u64>, tag: u32) {
        self.owners[tag as usize].change(0, me);
        self.tags.write_held(hand, tag, me as u64);
        if self.tags.read_held(hand, tag) != me as u64 {
            fault("a slot has another value");
        }
        self.owners[tag as usize].change(me, 0);
    }

    fn get_quietly(&self, hand: &mut Hand<u64>) -> Option<u32> {
        given(self.tags.get_quietly(hand)).answer
    }

    fn get(&self, me: usize, hand: &mut Hand<u64>) {
        for _ in 0..self.scenario.rounds {
            if let Some(tag) = self.get_quietly(hand) {
                self.hold(me, hand, tag);
                given(self.tags.clear_quietly(hand, tag));
            }
        }
    }

    fn sleep(&self, me: usize, hand: &mut Hand<u64>) {
        for _ in 0..self.scenario.rounds {
            let got = given(self.tags.get_blocking(&(), hand));
            self.hold(me, hand, got.answer);
            given(self.tags.clear(hand, got.answer));
        }
    }

    fn sleep_cached(&self, me: usize, cache: &mut Cache<u64>) {
        for _ in 0..self.scenario.rounds {
            let got = given(cache.get_blocking(&(), &self.tags));
            self.owners[got.answer as usize].change(0, me);
            self.owners[got.answer as usize].change(me, 0);
            let asleep = sleepers();
            given(cache.clear(&self.tags, got.answer));
            // Of more threads a third may have told the sleeper and be about to wake it.
            if self.scenario.is_least() && asleep != 0 && cache.count() > 0 {
                fault("a cache keeps a tag though somebody slept");
            }
        }
        cache.flush(&self.tags);
        cache.wake_next(&self.tags, Kind::Ordinary);
    }

    fn post(&self, me: usize, hand: &mut Hand<u64>) {
        for _ in 0..self.scenario.rounds {
            if let Some(tag) = self.get_quietly(hand) {
                self.owners[tag as usize].change(0, me);
                self.tags.write_held(hand, tag, u64::from(tag));
                self.owners[tag as usize].change(me, 0);
                given(self.tags.post(hand, tag));
            }
            for (tag, owner) in self.owners.iter().enumerate() {
                if self.tags.take(hand, tag as u32).is_ok() {
                    owner.change(0, me);
                    if self.tags.read_held(hand, tag as u32) != tag as u64 {
                        fault("a slot has another value");
                    }
                    owner.change(me, 0);
                    given(self.tags.clear_quietly(hand, tag as u32));
                }
            }
        }
    }

    fn hand_over(&self, me: usize, hand: &mut Hand<u64>) {
        if me < self.scenario.threads {
            let got = given(self.tags.get_blocking(&(), hand));
            return self.owners[got.answer as usize].change(0, me);
        }
        for (tag, owner) in self.owners.iter().enumerate() {
            owner.change(me, 0);
            given(self.tags.clear(hand, tag as u32));
        }
    }
}

/// Each thread gets a tag, if there is one, writes and reads its slot, and clears it, and tells nobody.
pub fn get(scenario: Scenario) {
    let (common, hands) = Common::open(scenario);
    common.play(hands, 0, Common::get);
}

/// The same, sleeping until there is a tag, and telling others.
pub fn sleep(scenario: Scenario) {
    let (common, hands) = Common::open(scenario);
    common.play(hands, 0, Common::sleep);
}

/// Each thread gets a tag, if there is one, writes its slot, and posts it; then it takes any tag that is posted, reads its
/// slot and clears it.
pub fn post(scenario: Scenario) {
    let (common, hands) = Common::open(scenario);
    common.play(hands, 0, Common::post);
}

/// The last thread clears all tags, which it holds at the start, and each other thread gets one and keeps it.
pub fn hand_over(scenario: Scenario) {
    let (common, mut hands) = Common::open(scenario);
    for owner in &common.owners {
        common.get_quietly(&mut hands[scenario.threads - 1]);
        owner.0.set(scenario.threads);
    }
    common.play(hands, scenario.tags, Common::hand_over);
}

/// As `sleep`, over a cache of one tag, which is given back at the end.
pub fn cache(scenario: Scenario) {
    let (common, hands) = Common::open(scenario);
    let mut caches: Vec<_> = hands.into_iter().map(|hand| Cache::new(hand, 1)).collect();
    run(&mut caches, |me, cache| common.sleep_cached(me, cache));
    let hands = caches.into_iter().map(|it| it.into_hand_quietly(&common.tags).0);
    let hands = hands.collect();
    common.close(hands, 0);
}
