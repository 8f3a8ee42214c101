// Made of crates/tag_script/src/callers.rt, where the contracts are, by rust/generate.

//! The world of a script whose callers share tags.

use crate::base::sleep::Wait;
use crate::base::vec::{AllocError, Global};
use crate::proved::tag_board::Board;
use crate::proved::tag_lines::{Command, Order};
use crate::proved::tag_model::Totals;
use crate::proved::tag_queue::Kind;
use crate::proved::tag_script::answer::{Answer, BusyTags, DumpBytes};
use crate::proved::tag_script::world::World;

/// Callers that share tags.
pub(crate) struct Callers<'a, W> {
    /// The runtime that a leave takes. A leave never sleeps.
    rt: &'a W,
    /// Allocator of the answers.
    alloc: Global,
    board: Board,
}

impl<'a, W: Wait> World for Callers<'a, W> {
    fn obey(self, order: &Order) -> Result<(Answer, Callers<'a, W>), AllocError> {
        if let Command::Resize(total) = order.command {
            let Callers { rt, alloc, board } = self;
            let (outcome, board) = board.resize(alloc, total)?;
            return Ok((Answer::to_resize(outcome), Callers { rt, alloc, board }));
        }
        let mut callers = self;
        match callers.answer(order.caller, &order.command) {
            Ok(answer) => Ok((answer, callers)),
            Err(fault) => {
                callers.totals();
                Err(fault)
            }
        }
    }

    fn totals(self) -> Totals {
        let Callers { rt: _, alloc: _, board } = self;
        board.close()
    }
}

impl<'a, W: Wait> Callers<'a, W> {
    /// Returns the world of this board.
    pub(crate) fn new(rt: &'a W, alloc: Global, board: Board) -> Callers<'a, W> {
        Callers { rt, alloc, board }
    }

    /// Carries out any command but a resize, which consumes the board.
    fn answer(&mut self, caller: u32, command: &Command) -> Result<Answer, AllocError> {
        let board = &mut self.board;
        match command {
            Command::Get => Ok(Answer::to_get(board.get(caller))),
            Command::GetReserved => Ok(Answer::to_get(board.get_reserved(caller))),
            Command::Shallow(depth) => Ok(Answer::to_get(board.get_shallow(caller, *depth))),
            Command::Batch(n) => Ok(Answer::to_batch(board.get_batch(caller, *n))),
            Command::Clear(tag) => Ok(Answer::to_clear(board.clear(caller, *tag))),
            Command::ClearBatch(tags) => Ok(Answer::to_clear(board.clear_batch(caller, tags.as_slice()))),
            Command::Post(tag) => Ok(Answer::to_done(board.post(caller, *tag))),
            Command::Take(tag) => Ok(Answer::to_done(board.take(caller, *tag))),
            Command::Wait => Ok(Answer::to_wait(board.wait(caller))),
            Command::Leave => Ok(Answer::to_leave(board.leave(self.rt, caller))),
            Command::Wakes => Ok(Answer::Wakes(board.wakes(caller))),
            Command::Show => Ok(Answer::Shown(board.show(caller, Kind::Ordinary))),
            Command::ShowReserved => Ok(Answer::Shown(board.show(caller, Kind::Reserved))),
            Command::Busy => Ok(Answer::Busy(self.busy(caller)?)),
            Command::Dump => Ok(Answer::Dump(self.dump(caller, Kind::Ordinary)?)),
            Command::DumpReserved => Ok(Answer::Dump(self.dump(caller, Kind::Reserved)?)),
            Command::Resize(_) => unreachable!(),
        }
    }

    /// Lists the busy tags, ascending.
    fn busy(&mut self, caller: u32) -> Result<BusyTags, AllocError> {
        let bits = self.board.busy(self.alloc, caller)?;
        BusyTags::of_bits(self.alloc, &bits)
    }

    /// Returns a bit for each tag of a set, 1 for a busy one.
    fn dump(&mut self, caller: u32, kind: Kind) -> Result<DumpBytes, AllocError> {
        let bytes = self.board.dump(self.alloc, caller, kind)?;
        Ok(DumpBytes::new(bytes))
    }
}
