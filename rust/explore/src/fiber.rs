//! Coroutines of one thread: each runs on a stack of its own until it switches back to the explorer.

use crate::memory::{self, MOST};
use std::cell::Cell;

/// What a coroutine does.
pub type Body<'a> = Box<dyn FnOnce() + 'a>;

/// Words that a switch leaves on the stack: six registers, where to go on, and one that aligns it.
const SAVED: usize = 8;

// The stack of the one is left at `from`, and that of the other is taken up.
#[cfg(all(target_arch = "x86_64", target_os = "linux"))]
std::arch::global_asm!(
    ".global tags_explore_switch",
    "tags_explore_switch:",
    "push rbp; push rbx; push r12; push r13; push r14; push r15",
    "mov [rdi], rsp",
    "mov rsp, rsi",
    "pop r15; pop r14; pop r13; pop r12; pop rbx; pop rbp",
    "ret",
);

#[cfg(all(target_arch = "x86_64", target_os = "linux"))]
extern "C" {
    fn tags_explore_switch(from: *mut usize, to: usize);
}

/// Elsewhere `main` refuses to explore.
#[cfg(not(all(target_arch = "x86_64", target_os = "linux")))]
unsafe fn tags_explore_switch(_: *mut usize, _: usize) {
    std::process::abort();
}

thread_local! {
    /// Where the explorer itself goes on.
    static EXPLORER: Cell<usize> = const { Cell::new(0) };
    /// Where each coroutine goes on.
    static STACKS: Cell<[usize; MOST]> = const { Cell::new([0; MOST]) };
    static STARTING: Cell<Option<Body<'static>>> = const { Cell::new(None) };
}

/// Where each coroutine goes on: the lowest address of its stack that it uses.
pub fn stacks() -> [usize; MOST] {
    STACKS.get()
}

/// Has the coroutines go on there.
pub fn set_stacks(stacks: [usize; MOST]) {
    STACKS.set(stacks);
}

fn set_stack(coroutine: usize, at: usize) {
    let mut stacks = STACKS.get();
    stacks[coroutine] = at;
    STACKS.set(stacks);
}

/// Begins with a body, up to its first switch back. What the body borrows has to live until it ends, or its memory is used
/// for something else.
pub fn start(coroutine: usize, body: Body<'_>) {
    // SAFETY: only the lifetime changes.
    STARTING.set(Some(unsafe { std::mem::transmute::<Body<'_>, Body<'static>>(body) }));
    let top = memory::top(coroutine).cast::<usize>();
    // SAFETY: these words are the last of the stack.
    unsafe {
        top.sub(SAVED).write_bytes(0, SAVED);
        top.sub(2).write(enter as *const () as usize);
    }
    set_stack(coroutine, top.wrapping_sub(SAVED) as usize);
    resume(coroutine);
}

/// Goes on with a coroutine, up to its next switch back.
pub fn resume(coroutine: usize) {
    memory::run_as(coroutine);
    // SAFETY: the coroutine left off there.
    unsafe { tags_explore_switch(EXPLORER.with(Cell::as_ptr), STACKS.get()[coroutine]) };
    memory::run_as(MOST);
    memory::clear_below(coroutine, STACKS.get()[coroutine]);
}

extern "C" fn enter() -> ! {
    if let Some(body) = STARTING.take() {
        body();
    }
    loop {
        crate::steps::end();
    }
}

/// Back to the explorer, until the coroutine is resumed.
pub fn switch_back() {
    let stacks = STACKS.with(Cell::as_ptr).cast::<usize>();
    // SAFETY: the explorer left off there when it resumed this coroutine, whose place among the stacks this is.
    unsafe { tags_explore_switch(stacks.add(memory::running()), EXPLORER.get()) };
}
