//! Tests of what the proved modules stand on.

use crate::base::digits::Buffer;
use crate::base::table::Table;
use crate::base::vec::{AllocError, Global, Vec};
use alloc::rc::Rc;

/// A table of two words and these slots.
fn table<S>(slots: Vec<S>) -> (Table<S>, crate::base::table::Seat<S>) {
    match Table::new(Global, &[7, 0], slots) {
        Ok(opened) => opened,
        Err(_) => unreachable!("there is memory"),
    }
}

#[test]
fn a_step_returns_what_the_word_was() {
    let (table, mut seat) = table::<()>(Vec::new(Global));
    let shared = &table.shared;
    assert_eq!(shared.fetch_add(&mut seat, 0, 1), 7);
    assert_eq!(shared.fetch_and(&mut seat, 0, 12), 8);
    assert_eq!(shared.compare_exchange(&mut seat, 0, 7, 1), 8);
    assert_eq!(shared.compare_exchange(&mut seat, 0, 8, 1), 8);
    assert_eq!(
        (shared.swap(&mut seat, 0, 5), shared.peek(0), shared.peek(1)),
        (1, 5, 0)
    );
}

#[test]
fn each_slot_comes_back_once() {
    let value = Rc::new(3);
    let slots = alloc::vec![Rc::clone(&value), Rc::new(4)];
    let (table, mut seat) = table(slots.into());
    assert_eq!(*table.shared.exchange(&mut seat, 1, Rc::clone(&value)), 4);
    let mut closed = table.close_with(seat);
    assert_eq!(
        (closed.word(0), closed.slot_count(), Rc::strong_count(&value)),
        (7, 2, 3)
    );
    drop((closed.take(0), closed.take(1)));
    closed.free();
    assert_eq!(Rc::strong_count(&value), 1);
}

#[test]
fn the_slots_of_an_open_table_are_dropped_with_it() {
    let value = Rc::new(3);
    drop(table(alloc::vec![Rc::clone(&value)].into()));
    assert_eq!(Rc::strong_count(&value), 1);
}

#[test]
fn growth_without_memory_leaves_a_vector_as_it_was() {
    let mut all = Vec::of(Global, &[1u64, 2]).unwrap_or_else(|_| Vec::new(Global));
    assert_eq!(all.reserve(usize::MAX), Err(AllocError));
    assert_eq!(all.resize(usize::MAX, 0), Err(AllocError));
    assert!(Vec::filled(Global, 0u64, usize::MAX).is_err());
    assert_eq!(all.as_slice(), [1, 2]);
}

#[cfg(debug_assertions)]
#[test]
#[should_panic(expected = "a word below their number")]
fn a_debug_build_refuses_an_index_out_of_range() {
    let (table, _) = table::<()>(Vec::new(Global));
    table.shared.peek(2);
}

#[test]
fn numbers_have_their_digits() {
    assert_eq!(Buffer::new().format(0u32), "0");
    assert_eq!(Buffer::new().format(u64::MAX), "18446744073709551615");
}

#[cfg(feature = "std")]
#[test]
fn a_sleeper_is_woken_after_the_word_changed() {
    use crate::base::park::{park, wake};
    use crate::base::word::Word;
    use core::sync::atomic::Ordering::SeqCst;

    let word = Word::new(1);
    std::thread::scope(|scope| {
        for _ in 0..4 {
            scope.spawn(|| {
                while word.load(SeqCst) == 1 {
                    park(&word, 1);
                }
            });
        }
        park(&word, 2);
        word.store(2, SeqCst);
        wake(&word, 1);
        wake(&word, u32::MAX);
    });
}
