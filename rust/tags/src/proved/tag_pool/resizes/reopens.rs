// Made of crates/tag_pool/src/resizes/reopens.rt, where the contracts are, by rust/generate.

//! Moves the hands to the next map, or hands them back if memory runs out.

use crate::base::vec::{Global, Vec};
use crate::proved::tag_core::Caller;
use crate::proved::tag_layout::Layout;
use crate::proved::tag_pool::hand::Hand;
use crate::proved::tag_pool::pool::Pool;
use crate::proved::tag_pool::resizes::next_map::next_map;
use crate::proved::tag_pool::resizes::shells::{part, unite, Buffers};
use crate::proved::tag_pool::resizes::{PoolResizeFault, ResizeCause};

impl<R: Copy> Pool<R> {
    /// Moves all hands to a new map of this layout, that of the ordinary tags of this total. Everything that can fail, except
    /// opening the map itself, comes before the hands are taken apart.
    #[inline]
    pub(crate) fn reopen(
        self,
        alloc: Global,
        layout: Layout,
        total: u32,
        hands: Vec<Hand<R>>,
    ) -> Result<(Pool<R>, Vec<Hand<R>>), PoolResizeFault<R>> {
        let cause = ResizeCause::Memory;
        let Ok(buffers) = Buffers::open(alloc, hands.len(), layout.depth(), self.fill) else {
            return Err(PoolResizeFault {
                cause,
                pool: self,
                hands,
            });
        };
        let Buffers {
            callers,
            shells,
            hands: room,
            slots,
        } = buffers;
        let (callers, shells) = part(hands, callers, shells);
        match self.go_on(alloc, callers, layout, total, slots) {
            Ok((pool, callers)) => Ok((pool, unite(callers, shells, room))),
            Err((pool, callers)) => Err(PoolResizeFault {
                cause,
                pool,
                hands: unite(callers, shells, room),
            }),
        }
    }

    /// Returns the pool with a new ordinary map and its callers on it, or the pool as it was.
    #[inline]
    fn go_on(
        self,
        alloc: Global,
        callers: Vec<Caller<R>>,
        layout: Layout,
        total: u32,
        slots: Vec<R>,
    ) -> Result<(Pool<R>, Vec<Caller<R>>), (Pool<R>, Vec<Caller<R>>)> {
        match next_map(alloc, self.ordinary, callers, layout, slots) {
            Ok((ordinary, callers)) => {
                let pool = Pool {
                    reserved: self.reserved,
                    ordinary,
                    reserved_count: self.reserved_count,
                    total,
                    shallowest: self.shallowest,
                    fill: self.fill,
                };
                Ok((pool, callers))
            }
            Err((ordinary, callers)) => {
                let pool = Pool {
                    reserved: self.reserved,
                    ordinary,
                    reserved_count: self.reserved_count,
                    total: self.total,
                    shallowest: self.shallowest,
                    fill: self.fill,
                };
                Err((pool, callers))
            }
        }
    }
}
