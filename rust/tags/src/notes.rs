//! Notes: two words beside each tag, a value and the time, that its holder publishes and anybody may read.
//!
//! Only the holder of a tag writes its board, and ends the note before the tag goes back. So whoever finds a note finds
//! one of the tag's user at that moment, and the next holder begins without any.
//!
//! A board has two places, and a note is written to the one where the last note is not. Then the count of notes tells of
//! it. So a reader has a note that is whole if the count is the same afterwards: a place is written again only after the
//! count has risen. It never waits for a holder that was interrupted while it wrote; it reads again if another note was
//! published meanwhile.

use crate::base::word::Word;
use crate::error::{Error, Result};
use alloc::vec::Vec;
use core::sync::atomic::Ordering::SeqCst;
use core::time::Duration;

/// What the user of a tag told of it by [`Tag::note`](crate::Tag::note), and when.
#[derive(Clone, Copy, Debug, PartialEq, Eq)]
pub struct Note {
    /// What `note` was given.
    pub value: u64,
    /// When that was, by the clock of the pool's [`Sleeper::now`](crate::Sleeper::now).
    pub since: Duration,
}

/// The notes of a pool's tags.
pub(crate) struct Notes {
    boards: Vec<Board>,
}

#[derive(Default)]
struct Board {
    /// Twice the number of notes that were published, and 1 more while the last one is there.
    state: Word,
    /// Note `i` is in place `i % 2`.
    places: [Place; 2],
}

#[derive(Default)]
struct Place {
    value: Word,
    /// In nanoseconds.
    since: Word,
}

impl Notes {
    /// No notes, for so many tags.
    pub fn new(tags: u32) -> Result<Notes> {
        let mut boards = Vec::new();
        boards.try_reserve_exact(tags as usize).map_err(|_| Error::NoMemory)?;
        boards.resize_with(tags as usize, Board::default);
        Ok(Notes { boards })
    }

    /// For the holder of the tag.
    pub fn publish(&self, tag: u32, note: Note) {
        let board = &self.boards[tag as usize];
        let number = board.state.load(SeqCst) / 2 + 1;
        let place = board.place(number);
        place.value.store(note.value, SeqCst);
        place.since.store(nanoseconds(note.since), SeqCst);
        board.state.store(2 * number + 1, SeqCst);
    }

    /// For the holder of the tag, before that goes back.
    pub fn end(&self, tag: u32) {
        let state = &self.boards[tag as usize].state;
        let found = state.load(SeqCst);
        if found % 2 == 1 {
            state.store(found - 1, SeqCst);
        }
    }

    /// The note of the tag's user, if there is one.
    pub fn find(&self, tag: u32) -> Option<Note> {
        let board = &self.boards[tag as usize];
        let mut state = board.state.load(SeqCst);
        loop {
            let note = board.place(state / 2).read();
            let after = board.state.load(SeqCst);
            if after / 2 == state / 2 {
                return (state % 2 == 1).then_some(note);
            }
            state = after;
        }
    }
}

impl Board {
    fn place(&self, number: u64) -> &Place {
        &self.places[(number % 2) as usize]
    }
}

impl Place {
    fn read(&self) -> Note {
        Note {
            value: self.value.load(SeqCst),
            since: Duration::from_nanos(self.since.load(SeqCst)),
        }
    }
}

/// Those of 584 years are the most.
fn nanoseconds(time: Duration) -> u64 {
    u64::try_from(time.as_nanos()).unwrap_or(u64::MAX)
}

/// How many tags one look finds at most.
pub(crate) const AT_ONCE: usize = 64;

/// Tags that were found busy, in ascending order, with their notes.
pub(crate) type Found = [Option<(u32, Option<Note>)>; AT_ONCE];
