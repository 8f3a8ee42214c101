// Made of crates/tag_pool/src/opens.rt, where the contracts are, by rust/generate.

//! Opens a pool with its hands.

use crate::base::vec::{AllocError, Global, Vec};
use crate::proved::tag_core::{Caller, Map};
use crate::proved::tag_layout::{Layout, MAX_DEPTH};
use crate::proved::tag_model::{MAX_CALLERS, MOST_WON};
use crate::proved::tag_pool::fault::OpenFault;
use crate::proved::tag_pool::hand::Hand;
use crate::proved::tag_pool::options::Options;
use crate::proved::tag_pool::pool::Pool;
use crate::proved::tag_pool::side::Side;
use crate::proved::tag_search::Hint;

mod placing;

impl<R: Copy> Pool<R> {
    /// Opens a pool of free tags, of which the first are the reserved ones. Each tag has a slot that contains `fill`. The
    /// hands are in the order of their numbers. The causes are tested in this order: `TotalTooLarge`, more than 10,240
    /// tags; `ReservedTooLarge`, more reserved tags than tags; `ShiftTooLarge`, a shift above 6; `CallerCount`, not 1 to
    /// 64 hands; `LifeTooLong`, a life above 2^48; `Memory`.
    #[inline]
    pub fn open(alloc: Global, options: Options, fill: R) -> Result<(Pool<R>, Vec<Hand<R>>), OpenFault> {
        if options.depth > MAX_DEPTH {
            return Err(OpenFault::TotalTooLarge);
        }
        if options.reserved > options.depth {
            return Err(OpenFault::ReservedTooLarge);
        }
        let counted = options.counted_hands();
        let ordinary = options.depth - options.reserved;
        let Ok(rest) = Layout::by_hands(ordinary, counted, options.shift) else {
            return Err(OpenFault::ShiftTooLarge);
        };
        let Ok(first) = Layout::by_hands(options.reserved, counted, options.shift) else {
            return Err(OpenFault::ShiftTooLarge);
        };
        if options.hands == 0 || options.hands > MAX_CALLERS {
            return Err(OpenFault::CallerCount);
        }
        if options.life > MOST_WON {
            return Err(OpenFault::LifeTooLong);
        }
        match lay_out(alloc, first, rest, options, fill) {
            Ok(opened) => Ok(opened),
            Err(_) => Err(OpenFault::Memory),
        }
    }
}

/// Allocates a pool and its hands for arguments that are valid, so it fails only if memory runs out.
#[inline]
fn lay_out<R: Copy>(
    alloc: Global,
    first: Layout,
    rest: Layout,
    options: Options,
    fill: R,
) -> Result<(Pool<R>, Vec<Hand<R>>), AllocError> {
    let reserved_count = first.depth();
    let (reserved, reserved_callers) = open_set(alloc, first, options, fill)?;
    let (ordinary, ordinary_callers) = open_set(alloc, rest, options, fill)?;
    let hint = Hint {
        at: 0,
        round_robin: options.round_robin,
    };
    let hands = join(alloc, reserved_count, reserved_callers, ordinary_callers, hint)?;
    let pool = Pool {
        reserved,
        ordinary,
        reserved_count,
        total: reserved_count + rest.depth(),
        shallowest: options.min_shallow.unwrap_or(1).max(1),
        fill,
    };
    Ok((pool, hands))
}

/// Opens the map of one set, with its callers.
#[inline]
fn open_set<R: Copy>(
    alloc: Global,
    layout: Layout,
    options: Options,
    fill: R,
) -> Result<(Map<R>, Vec<Caller<R>>), AllocError> {
    let slots = Vec::filled(alloc, fill, layout.depth() as usize)?;
    let Ok(opened) = Map::open(alloc, layout, options.hands, options.life, slots) else {
        return Err(AllocError);
    };
    Ok(opened)
}

/// Puts hands together from these callers, in the same order.
#[inline]
fn join<R>(
    alloc: Global,
    reserved_count: u32,
    reserved: Vec<Caller<R>>,
    ordinary: Vec<Caller<R>>,
    hint: Hint,
) -> Result<Vec<Hand<R>>, AllocError> {
    let mut hands = Vec::new(alloc);
    let mut callers = reserved.into_iter();
    let mut others = ordinary.into_iter();
    while let Some(reserved) = callers.next() {
        let Some(ordinary) = others.next() else { unreachable!() };
        hands.push(Hand {
            reserved_count,
            reserved: Side::new(reserved, hint),
            ordinary: Side::new(ordinary, hint),
        })?;
    }
    Ok(hands)
}
