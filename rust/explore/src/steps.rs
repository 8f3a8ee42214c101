//! What a thread calls before each of its steps, and what it calls where something is wrong.

use crate::fiber::{self, Body};
use crate::memory::{run_as, running, MOST};
use crate::stage::{Access, Stage, State, Step};
use std::cell::{Cell, RefCell};
use std::fmt::Display;

thread_local! {
    static STAGE: RefCell<Stage> = RefCell::default();
    /// What the threads of the scenario do, until they are started.
    static BODIES: Cell<Vec<Body<'static>>> = const { Cell::new(Vec::new()) };
    /// The scenario, for a fault to name it.
    static NAME: RefCell<String> = RefCell::default();
    /// The thread of each step, for a fault to name them.
    static ORDER: RefCell<Vec<usize>> = RefCell::default();
}

fn with<T>(run: impl FnOnce(&mut Stage) -> T) -> T {
    STAGE.with_borrow_mut(run)
}

/// Has the thread that runs wait for its turn. Before and after the threads the play runs alone, and waits for nobody.
fn stop(state: State, place: usize, access: Access) {
    let me = running();
    if me != 0 && me != MOST {
        with(|stage| stage.stop(me, state, Step { place, access }));
        fiber::switch_back();
        with(|stage| stage.go_on(me));
    }
}

/// A thread is about to step on a place.
pub fn step(place: usize, access: Access) {
    stop(State::Ready, place, access);
}

/// Sleeps if the word is as expected when the step is made: until a wake, or if the sleep is timed, until the time is up,
/// or for no reason. The play itself has nobody to wake it.
pub fn park(place: usize, is_timed: bool, is_as_expected: impl FnOnce() -> bool) {
    step(place, Access::Word);
    if is_as_expected() && !(is_timed && is_late()) {
        if running() == 0 {
            fault("nobody is left to end a sleep");
        }
        stop(State::Asleep { place, is_timed }, place, Access::Word);
    }
}

/// Wakes up to `count` of those who sleep on the place.
pub fn wake(place: usize, count: usize) {
    step(place, Access::Word);
    with(|stage| stage.wake(place, count));
}

/// Whether the time is up.
pub fn is_late() -> bool {
    with(|stage| stage.is_late())
}

/// Takes a lock, once it is free.
pub fn take(place: usize) {
    step(place, Access::Lock);
    if !with(|stage| stage.take(place)) {
        fault("a lock is taken that is held");
    }
}

/// Takes a lock if it is free. Returns whether it was.
pub fn try_take(place: usize) -> bool {
    step(place, Access::Word);
    with(|stage| !stage.is_held(place) && stage.take(place))
}

/// Frees a lock. It is one step with the one before, as nobody could tell the difference.
pub fn free(place: usize) {
    with(|stage| stage.free(place));
}

/// The threads that sleep, a bit for each.
pub fn sleepers() -> u32 {
    with(|stage| stage.sleepers())
}

/// The coroutine that runs has ended.
pub fn end() {
    with(|stage| stage.stop(running(), State::Done, Step::default()));
    fiber::switch_back();
}

/// Tells what is wrong, and by which order of the threads, and ends the program.
pub fn fault(what: impl Display) -> ! {
    // What is printed needs more memory than a coroutine may have left.
    run_as(MOST);
    let order: String = ORDER.with_borrow(|order| order.iter().map(usize::to_string).collect());
    let name = NAME.with_borrow(String::clone);
    println!("{name}: FAULT: {what}, by the steps of {order}");
    std::process::exit(1);
}

/// Runs the threads of a play, from 1 on, each with its own of these items, and returns when all have ended: once for each
/// way in which they do.
pub fn run<I>(items: impl IntoIterator<Item = I>, body: impl Fn(usize, I)) {
    let body = &body;
    let threads = (1..).zip(items);
    let bodies = threads.map(|(me, item)| -> Body<'_> { Box::new(move || body(me, item)) });
    // SAFETY: only the lifetimes change. All bodies have ended when this returns; or it does not return, and what they
    // borrow stays.
    BODIES.set(unsafe { std::mem::transmute::<Vec<Body<'_>>, Vec<Body<'static>>>(bodies.collect()) });
    fiber::switch_back();
}

/// The same beside a clock, which is one more thread. Its only step is that the time is up.
pub fn run_in_time<I>(items: impl IntoIterator<Item = I>, body: impl Fn(usize, I)) {
    let threads = items.into_iter().map(Some).chain([None]);
    run(threads, |me, item| match item {
        Some(item) => body(me, item),
        None => {
            step(0, Access::Word);
            with(Stage::end_time);
        }
    });
}

/// Begins a play, up to the first steps of its threads.
pub fn begin(name: &str, play: impl Fn()) {
    NAME.set(name.into());
    ORDER.take();
    STAGE.take();
    fiber::start(0, Box::new(play));
    let threads = BODIES.take().into_iter().zip(1..);
    threads.for_each(|(body, at)| fiber::start(at, body));
}

/// Where the threads are.
pub fn stage() -> Stage {
    with(|stage| *stage)
}

/// Has a thread make its next step, which is one of this place in the schedule, from where the threads were.
pub fn go_on(stage: Stage, thread: usize, at: usize) {
    STAGE.set(stage);
    ORDER.with_borrow_mut(|order| {
        order.truncate(at);
        order.push(thread);
    });
    fiber::resume(thread);
}
