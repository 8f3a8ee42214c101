// Made of crates/tag_script/src/check.rt, where the contracts are, by rust/generate.

//! Verdicts on lists of events.

use crate::base::vec::{AllocError, Global, Vec};
use crate::proved::tag_layout::{Layout, LayoutFault};
use crate::proved::tag_lines::{events, FaultyLine, ListFault, Place, Refusal};
use crate::proved::tag_model::{Event, EventFault, ModelFault, Totals, World};
use crate::proved::tag_queue::QueueOpenFault;
use crate::proved::tag_script::ending::Ending;
use crate::proved::tag_script::fault::OpenFault;
use crate::proved::tag_script::options::CheckOptions;
use crate::proved::tag_script::refused::{event_words, setup_refusal, wrong_word};
use crate::proved::tag_script::text::{end_line, push_faulty, push_field, push_setup, push_totals};

/// What is said of a word by which no event goes.
const UNKNOWN_EVENT: &str = "no such event with this many words";

/// The verdict on a list of events.
#[derive(Clone, Copy, Debug, PartialEq, Eq)]
pub enum Verdict {
    /// The first malformed line.
    Faulty(FaultyLine),
    /// The options describe no world. Every line is an event.
    Setup(QueueOpenFault),
    /// The line of the first event that cannot happen, and the word of it that is wrong, both counted from 1, and the
    /// reason.
    Stopped(u64, u64, EventFault),
    /// Every event can happen: the number of events, and the totals after them.
    Legal(u64, Totals),
}

/// Decides whether a list of events is possible, one event per line, from a world with all tags free. The first
/// malformed line is reported before an illegal setup, and that before any event. `AllocError` if memory runs out.
pub fn verdict_on(alloc: Global, options: &CheckOptions, text: &[u8]) -> Result<Verdict, AllocError> {
    let events = match events(alloc, text) {
        Ok(events) => events,
        Err(ListFault::Memory) => return Err(AllocError),
        Err(ListFault::Faulty(fault)) => return Ok(Verdict::Faulty(fault)),
    };
    match open(alloc, options) {
        Ok((layout, mut world)) => Ok(run(layout, &mut world, &events)),
        Err(OpenFault::Memory) => Err(AllocError),
        Err(OpenFault::Setup(fault)) => Ok(Verdict::Setup(fault)),
    }
}

/// Opens the world that the options describe, with all tags free.
fn open(alloc: Global, options: &CheckOptions) -> Result<(Layout, World), OpenFault> {
    let layout = match Layout::new(options.tags, options.shift) {
        Ok(layout) => layout,
        Err(LayoutFault::DepthTooLarge) => return Err(OpenFault::Setup(QueueOpenFault::TotalTooLarge)),
        Err(LayoutFault::ShiftTooLarge) => return Err(OpenFault::Setup(QueueOpenFault::ShiftTooLarge)),
    };
    match World::open(alloc, layout, options.callers) {
        Ok(world) => Ok((layout, world)),
        Err(ModelFault::Memory) => Err(OpenFault::Memory),
        Err(ModelFault::CallerCount) => Err(OpenFault::Setup(QueueOpenFault::CallerCount)),
    }
}

/// Runs the events one after another. The event at index `n - 1` is in line `n`.
fn run(layout: Layout, world: &mut World, events: &[Event]) -> Verdict {
    match world.run(events) {
        Ok(totals) => Verdict::Legal(events.len() as u64, totals),
        Err((index, fault)) => {
            let word = wrong_word(layout, events[index], fault);
            Verdict::Stopped(index as u64 + 1, word, fault)
        }
    }
}

impl Verdict {
    /// Returns the line that reports the verdict.
    pub fn text(&self, alloc: Global) -> Result<Vec<u8>, AllocError> {
        let mut text = Vec::new(alloc);
        self.push_to(&mut text)?;
        Ok(text)
    }

    fn push_to(&self, text: &mut Vec<u8>) -> Result<(), AllocError> {
        match *self {
            Verdict::Faulty(fault) => push_faulty(text, fault),
            Verdict::Setup(fault) => push_setup(text, fault),
            Verdict::Stopped(line, _, fault) => {
                push_field(text, b"event ", line)?;
                push_field(text, b" refused ", number_of(fault))?;
                end_line(text)
            }
            Verdict::Legal(count, totals) => {
                push_field(text, b"ok events=", count)?;
                push_totals(text, totals)?;
                end_line(text)
            }
        }
    }

    /// Returns `Done` if the list is legal, otherwise `Refused` with what is wrong.
    pub fn ending(&self) -> Ending {
        match *self {
            Verdict::Faulty(fault) => Ending::Refused(fault.refusal(UNKNOWN_EVENT)),
            Verdict::Setup(fault) => Ending::Refused(setup_refusal(fault)),
            Verdict::Stopped(line, word, fault) => Ending::Refused(Refusal {
                place: Place::Word(line, word),
                what: event_words(fault),
            }),
            Verdict::Legal(_, _) => Ending::Done,
        }
    }
}

/// The number of a refused event in the output.
fn number_of(fault: EventFault) -> u64 {
    match fault {
        EventFault::NoSuchTag => 1,
        EventFault::NoSuchCaller => 2,
        EventFault::NotFree => 3,
        EventFault::NotHeld => 4,
        EventFault::NotPosted => 5,
        EventFault::Spent => 6,
        EventFault::NotSwept => 7,
    }
}
