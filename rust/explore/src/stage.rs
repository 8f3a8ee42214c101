//! What each thread does next, and which threads can go on.

use crate::memory::MOST;

/// How a step uses a place in memory.
#[derive(Clone, Copy, Default, PartialEq, Hash)]
pub enum Access {
    /// A step on an atomic word, or none.
    #[default]
    Word,
    /// A slot is used, which nobody else may do at the same time.
    Slot,
    /// A lock is taken, as soon as it is free.
    Lock,
}

/// What a thread does when it goes on.
#[derive(Clone, Copy, Default, Hash)]
pub struct Step {
    pub place: usize,
    pub access: Access,
}

#[derive(Clone, Copy, Default, PartialEq, Hash)]
pub enum State {
    Ready,
    /// It sleeps on a place, and if it is timed, at most until the time is up.
    Asleep {
        place: usize,
        is_timed: bool,
    },
    /// It has ended, or there is no such thread.
    #[default]
    Done,
}

#[derive(Clone, Copy, Default, Hash)]
struct Thread {
    state: State,
    next: Step,
}

/// The threads of a scenario. Place 0 is that of the play, which opens and closes it, and is no thread.
#[derive(Clone, Copy, Default, Hash)]
pub struct Stage {
    threads: [Thread; MOST],
    /// The places of the locks that are held in ascending order, after a 0 for each that could be held besides.
    held: [usize; 8],
    /// Whether the time is up.
    is_late: bool,
}

impl Stage {
    /// The thread stops before this step.
    pub fn stop(&mut self, me: usize, state: State, next: Step) {
        self.threads[me] = Thread { state, next };
    }

    pub fn go_on(&mut self, me: usize) {
        self.threads[me].state = State::Ready;
    }

    fn rouse(&mut self, count: usize, is_roused: impl Fn(usize, bool) -> bool) {
        let sleeps =
            |it: &&mut Thread| matches!(it.state, State::Asleep { place, is_timed } if is_roused(place, is_timed));
        let asleep = self.threads.iter_mut().filter(sleeps);
        asleep.take(count).for_each(|it| it.state = State::Ready);
    }

    /// Wakes up to `count` of those who sleep on the place.
    pub fn wake(&mut self, place: usize, count: usize) {
        self.rouse(count, |at, _| at == place);
    }

    /// The time is up, which ends all sleeps that are timed.
    pub fn end_time(&mut self) {
        self.is_late = true;
        self.rouse(MOST, |_, is_timed| is_timed);
    }

    pub fn is_late(&self) -> bool {
        self.is_late
    }

    /// Whether a lock is held.
    pub fn is_held(&self, place: usize) -> bool {
        self.held.contains(&place)
    }

    /// Notes that a lock is held. Returns whether it was free.
    pub fn take(&mut self, place: usize) -> bool {
        let is_free = !self.is_held(place);
        assert_eq!(self.held[0], 0, "no more locks are held at a time");
        self.held[0] = place;
        self.held.sort_unstable();
        is_free
    }

    /// Notes that a lock is free.
    pub fn free(&mut self, place: usize) {
        self.held.iter_mut().filter(|it| **it == place).for_each(|it| *it = 0);
        self.held.sort_unstable();
    }

    fn mask(&self, is_in: impl Fn(&Thread) -> bool) -> u32 {
        let numbers = (0..MOST).filter(|it| is_in(&self.threads[*it]));
        numbers.fold(0, |mask, it| mask | 1 << it)
    }

    /// The threads that need not wait for others, a bit for each.
    pub fn ready(&self) -> u32 {
        let is_locked_out = |next: Step| next.access == Access::Lock && self.is_held(next.place);
        self.mask(|it| it.state == State::Ready && !is_locked_out(it.next))
    }

    /// The threads that sleep.
    pub fn sleepers(&self) -> u32 {
        self.mask(|it| matches!(it.state, State::Asleep { .. }))
    }

    /// The threads that can go on: a sleep may end for no reason.
    pub fn enabled(&self) -> u32 {
        self.ready() | self.sleepers()
    }

    /// What is wrong, if anything is.
    pub fn fault(&self) -> Option<&'static str> {
        let is_over = self.threads.iter().all(|it| it.state == State::Done);
        if !is_over && self.ready() == 0 {
            return Some("all that are left wait for others");
        }
        self.has_race().then_some("a slot has two users")
    }

    /// Whether two threads are about to use one slot.
    fn has_race(&self) -> bool {
        let slots = self.threads.map(|it| match (it.state, it.next.access) {
            (State::Ready, Access::Slot) => it.next.place,
            _ => 0,
        });
        (1..MOST).any(|at| slots[at] != 0 && slots[..at].contains(&slots[at]))
    }
}
