// Made of crates/loop_device/src/segments.rt, where the contracts are, by rust/generate.

//! The stamps of a row of sectors, as a segment tree that is split where stamps differ.

use crate::base::boxed::Box;
use crate::base::vec::{AllocError, Global};

/// The stamps of sectors 0, 1, 2, .. of a row. The caller keeps the row's width, which is halved at each level.
pub(crate) enum Segments {
    /// All sectors have this stamp.
    Leaf(u64),
    /// The greatest stamp, and the stamps of the lower and the upper half.
    Node(u64, Box<Segments>, Box<Segments>),
}

impl Segments {
    /// The greatest stamp of the whole row.
    fn greatest_of(&self) -> u64 {
        match self {
            Segments::Leaf(stamp) => *stamp,
            Segments::Node(greatest, _, _) => *greatest,
        }
    }

    /// The greatest stamp of the sectors from `first` up to but not including `end`, 0 if there are none.
    pub(crate) fn greatest(&self, width: u128, first: u128, end: u128) -> u64 {
        if end <= first {
            return 0;
        }
        match self {
            Segments::Leaf(stamp) => *stamp,
            Segments::Node(greatest, low, high) => {
                if first == 0 && end == width {
                    return *greatest;
                }
                let half = width / 2;
                let below = low.greatest(half, first.min(half), end.min(half));
                let above = high.greatest(width - half, first.saturating_sub(half), end.saturating_sub(half));
                below.max(above)
            }
        }
    }

    /// Splits the row until no part with a single stamp extends across `at`. No stamp changes.
    pub(crate) fn split_at(&mut self, alloc: Global, width: u128, at: u128) -> Result<(), AllocError> {
        if at == 0 || at == width {
            return Ok(());
        }
        let half = width / 2;
        match self {
            Segments::Leaf(stamp) => {
                let stamp = *stamp;
                let mut low = Box::new(alloc, Segments::Leaf(stamp))?;
                let mut high = Box::new(alloc, Segments::Leaf(stamp))?;
                if at < half {
                    low.split_at(alloc, half, at)?;
                } else {
                    high.split_at(alloc, width - half, at - half)?;
                }
                *self = Segments::Node(stamp, low, high);
                Ok(())
            }
            Segments::Node(_, low, high) => {
                if at < half {
                    low.split_at(alloc, half, at)
                } else {
                    high.split_at(alloc, width - half, at - half)
                }
            }
        }
    }

    /// Stamps the sectors from `first` up to but not including `end`.
    pub(crate) fn assign(&mut self, width: u128, first: u128, end: u128, stamp: u64) {
        if end <= first {
            return;
        }
        if first == 0 && end == width {
            *self = Segments::Leaf(stamp);
            return;
        }
        let half = width / 2;
        match self {
            Segments::Node(greatest, low, high) => {
                low.assign(half, first.min(half), end.min(half), stamp);
                high.assign(
                    width - half,
                    first.saturating_sub(half),
                    end.saturating_sub(half),
                    stamp,
                );
                *greatest = low.greatest_of().max(high.greatest_of());
            }
            Segments::Leaf(_) => unreachable!(),
        }
    }
}
