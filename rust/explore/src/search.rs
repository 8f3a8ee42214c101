//! Goes through all states that the threads of a scenario can come to, depth first. Each state is one moment at which all
//! threads have stopped before their next steps, and from each the search goes on with every thread that can.

use crate::fiber;
use crate::image::{Image, Mark, Sum};
use crate::stage::Stage;
use crate::steps::{self, fault};
use std::collections::HashMap;
use std::hash::{BuildHasherDefault, Hash, Hasher};

/// More steps than any schedule here takes: a thread that goes on and on is found.
const MOST_STEPS: usize = 10_000;

/// How the search came to a state.
#[derive(Clone, Copy, Default)]
struct Way {
    /// The thread that made the last step, or 0.
    last: usize,
    /// How often a thread was left so far that could go on, where that is limited.
    switches: u32,
    /// Whether the last step ended a sleep for no reason.
    is_rest: bool,
}

/// A state on the path, from which the search goes on.
struct Choice {
    /// The state before it.
    before: Mark,
    stage: Stage,
    way: Way,
    /// By what it is known.
    sum: u64,
    /// The threads that are still to be tried.
    left: u32,
}

/// A state that was found.
struct Seen {
    /// The least number of switches to it.
    switches: u32,
    /// Its place on the path, while it is there.
    at: Option<usize>,
}

/// What was found of a scenario.
#[derive(Default)]
pub struct Explored {
    pub states: usize,
    /// Ways in which it ended.
    pub ends: usize,
    /// Steps that were made, from all states.
    pub steps: usize,
    /// Steps of the longest schedule.
    pub longest: usize,
}

struct Search {
    /// The most switches of a schedule.
    most: Option<u32>,
    seen: HashMap<u64, Seen, BuildHasherDefault<Sum>>,
    path: Vec<Choice>,
    image: Image,
    found: Explored,
}

impl Search {
    /// Looks at a state, and goes on from it later if it is new.
    fn look(&mut self, mut way: Way) {
        let stage = steps::stage();
        if let Some(what) = stage.fault() {
            fault(what);
        }
        // To leave a thread that waits for others is no switch.
        if stage.ready() >> way.last & 1 == 0 {
            way.last = 0;
        }
        let (memory, extent) = self.image.look();
        let mut sum = Sum::default();
        (memory, extent, stage, self.most.map(|_| way.last)).hash(&mut sum);
        let sum = sum.finish();
        if self.is_seen(sum, way) {
            return self.image.take_up();
        }
        let before = self.image.keep(memory, extent);
        let stays = way.last != 0 && self.most == Some(way.switches);
        let left = if stays { 1 << way.last } else { stage.enabled() };
        self.push(Choice {
            before,
            stage,
            way,
            sum,
            left,
        });
    }

    /// Whether a state was found before, by no more switches.
    fn is_seen(&self, sum: u64, way: Way) -> bool {
        let seen = self.seen.get(&sum).filter(|it| it.switches <= way.switches);
        if let Some(begin) = seen.and_then(|it| it.at) {
            self.check_circle(begin, way);
        }
        seen.is_some()
    }

    /// Nobody goes round in circles, unless a sleep is ended for no reason again and again.
    fn check_circle(&self, begin: usize, way: Way) {
        let is_rest = way.is_rest || self.path[begin + 1..].iter().any(|it| it.way.is_rest);
        if !is_rest {
            fault("the threads go round in circles");
        }
    }

    /// Puts a state on the path. If no thread is left, all have ended, and the play goes on to its end.
    fn push(&mut self, choice: Choice) {
        let (switches, at) = (choice.way.switches, Some(self.path.len()));
        self.seen.insert(choice.sum, Seen { switches, at });
        let is_end = choice.left == 0;
        self.path.push(choice);
        self.found.longest = self.found.longest.max(self.path.len());
        if self.path.len() > MOST_STEPS {
            fault("too many steps");
        }
        if is_end {
            self.found.ends += 1;
            fiber::resume(0);
            self.image.look();
            self.image.take_up();
        }
    }

    /// Goes on with a thread from the last state that has one left.
    fn go_on(&mut self) -> Option<Way> {
        while self.path.last()?.left == 0 {
            let last = self.path.pop()?;
            self.seen.get_mut(&last.sum)?.at = None;
            self.image.go_back(last.before);
        }
        let choice = self.path.last_mut()?;
        let next = choice.left.trailing_zeros() as usize;
        choice.left &= !(1 << next);
        let is_switch = self.most.is_some() && choice.way.last != 0 && choice.way.last != next;
        let way = Way {
            last: next,
            switches: choice.way.switches + u32::from(is_switch),
            is_rest: choice.stage.sleepers() >> next & 1 == 1,
        };
        self.found.steps += 1;
        steps::go_on(choice.stage, next, self.path.len() - 1);
        Some(way)
    }
}

/// Goes through the states of a scenario, of all schedules, or of those with at most so many switches away from a thread
/// that can go on.
pub fn explore(name: &str, most: Option<u32>, play: impl Fn()) -> Explored {
    let mut search = Search {
        most,
        seen: HashMap::default(),
        path: Vec::new(),
        image: Image::new(),
        found: Explored::default(),
    };
    steps::begin(name, play);
    search.look(Way::default());
    while let Some(way) = search.go_on() {
        search.look(way);
    }
    search.found.states = search.seen.len();
    search.found
}
