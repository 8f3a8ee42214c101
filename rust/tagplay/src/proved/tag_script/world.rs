// Made of crates/tag_script/src/world.rt, where the contracts are, by rust/generate.

//! The worlds on which scripts run.

use crate::base::vec::AllocError;
use crate::proved::tag_lines::Order;
use crate::proved::tag_model::Totals;
use crate::proved::tag_script::answer::Answer;

/// A world on which a script runs.
pub trait World: Sized {
    /// Carries out an order. It fails only if memory runs out: a refusal is an answer.
    fn obey(self, order: &Order) -> Result<(Answer, Self), AllocError>;

    /// Closes the world at the end of a script, and returns the totals.
    fn totals(self) -> Totals;
}
