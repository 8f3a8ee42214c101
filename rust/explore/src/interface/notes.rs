//! Threads that note their tags, and one that reads the notes.

use crate::interface::{close, stage, Hand, Pool};
use crate::notes::Note;
use crate::options::Options;
use crate::scenarios::Scenario;
use crate::stage::Access;
use crate::steps::{fault, run, step};
use crate::tag::Tag;
use std::cell::Cell;
use std::time::Duration;

/// How many notes a thread has at most.
const MOST: u64 = 8;

/// What is known of the notes of a tag, each of which is a number of its own.
#[derive(Clone, Default)]
struct Known {
    /// That of the tag's user until it is about to end it, or 0, and how often that was.
    note: Cell<u64>,
    ends: Cell<u32>,
    /// Those of the tag's user, and those of users who have given the tag back: a bit for each.
    own: Cell<u64>,
    over: Cell<u64>,
}

impl Known {
    /// A tag that a thread has got has no note of a former user.
    fn begin(&self) {
        self.over.set(self.over.get() | self.own.take());
    }

    fn publish(&self, tag: &Tag<'_, usize>, number: u64) {
        self.own.set(self.own.get() | 1 << number);
        let note = Note {
            value: number,
            since: Duration::from_nanos(number),
        };
        if tag.publish(note).is_err() {
            fault("a note was refused");
        }
        self.note.set(number);
    }

    /// Gives the tag back. Another thread may have it by the end, and notes of its own.
    fn end(&self, tag: Tag<'_, usize>) {
        let notes = self.own.get();
        self.note.set(0);
        self.ends.set(self.ends.get() + 1);
        drop(tag);
        self.over.set(self.over.get() | notes);
        self.own.set(self.own.get() & !notes);
    }
}

/// Gets a tag if there is one, notes it twice, and gives it back.
fn note_each(scenario: Scenario, me: usize, hand: &Hand, known: &[Known]) {
    let mut number = me as u64 * MOST;
    for _ in 0..scenario.rounds {
        let Ok(Some(tag)) = hand.get() else { continue };
        let known = &known[tag.number() as usize];
        known.begin();
        for _ in 0..2 {
            number += 1;
            known.publish(&tag, number);
        }
        known.end(tag);
    }
}

/// What is found was there at one moment, and what was there all the while is found.
fn read(pool: &Pool, known: &[Known]) {
    // A step, so that the look begins at any moment.
    step(known.as_ptr() as usize, Access::Word);
    let before = known.to_vec();
    let mut found = vec![0; known.len()];
    let Ok(noted) = pool.noted_tags() else {
        fault("the notes were refused");
    };
    for (tag, note) in noted {
        let Some(note) = note else { continue };
        if note.since != Duration::from_nanos(note.value) {
            fault("a note has the time of another one");
        }
        if before[tag as usize].over.get() >> note.value & 1 == 1 {
            fault("a note is of a user who had given the tag back");
        }
        found[tag as usize] = note.value;
    }
    for ((before, after), found) in before.iter().zip(known).zip(found) {
        let was_there = before.note.get() != 0 && before.ends == after.ends;
        if was_there && (found == 0 || before.note == after.note && found != before.note.get()) {
            fault("the note of a tag is not found");
        }
    }
}

fn play(scenario: Scenario, options: &Options) {
    let (pool, hands) = stage(options);
    let known = vec![Known::default(); scenario.tags];
    run(&hands, |me, hand| {
        if me < scenario.threads {
            return note_each(scenario, me, hand, &known);
        }
        (0..=scenario.rounds).for_each(|_| read(&pool, &known));
    });
    drop(known);
    drop(hands);
    close(pool);
}

/// The last thread reads the notes twice, and each other one notes its tag.
pub fn note(scenario: Scenario) {
    play(
        scenario,
        &Options {
            notes: true,
            ..scenario.options()
        },
    );
}

/// The same where hands keep a tag.
pub fn note_kept(scenario: Scenario) {
    play(
        scenario,
        &Options {
            notes: true,
            cache: 1,
            ..scenario.options()
        },
    );
}
