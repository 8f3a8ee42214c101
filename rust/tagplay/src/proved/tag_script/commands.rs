// Made of crates/tag_script/src/commands.rt, where the contracts are, by rust/generate.

//! The commands of a plain script.

use crate::base::vec::AllocError;
use crate::proved::tag_lines::{Command, Order};
use crate::proved::tag_model::Totals;
use crate::proved::tag_script::answer::Answer;
use crate::proved::tag_script::plain_caller::PlainCaller;
use crate::proved::tag_script::world::World;

impl World for PlainCaller {
    fn obey(self, order: &Order) -> Result<(Answer, PlainCaller), AllocError> {
        let mut world = self;
        let answer = world.answer(&order.command)?;
        Ok((answer, world))
    }

    fn totals(self) -> Totals {
        let mut world = self;
        let (held, _) = world.counts();
        Totals {
            got: world.won(),
            back: world.back(),
            held: u64::from(held),
            posted: 0,
        }
    }
}

impl PlainCaller {
    /// Carries out a command of a plain script.
    fn answer(&mut self, command: &Command) -> Result<Answer, AllocError> {
        match command {
            Command::Get => Ok(Answer::Tag(self.get())),
            Command::Shallow(depth) => Ok(Answer::to_get(self.get_shallow(*depth))),
            Command::Batch(n) => Ok(Answer::to_batch(self.get_batch(*n))),
            Command::Clear(tag) => Ok(Answer::to_done(self.clear(*tag))),
            Command::ClearBatch(tags) => Ok(Answer::to_done(self.clear_batch(tags.as_slice()))),
            Command::Show => Ok(Answer::Shown(self.shown())),
            Command::Busy => Ok(Answer::Busy(self.busy()?)),
            Command::Dump => Ok(Answer::Dump(self.dump()?)),
            _ => unreachable!(),
        }
    }
}
