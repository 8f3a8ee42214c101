// Made of crates/step_ledger/src/numbered.rt, where the contracts are, by rust/generate.

//! Which member is missing when the members of a table come together.

use crate::base::vec::Vec;

/// Why members cannot come together.
#[derive(Clone, Copy, Debug, PartialEq, Eq)]
pub enum GatherCause {
    /// A member was not passed in. This is the least number that is missing.
    Missing(u32),
}

/// A member of a table, numbered from 0.
pub trait Numbered {
    fn number(&self) -> u32;
}

/// Establishes that each number below `count` is that of a member, or returns why not.
#[inline]
pub fn all_there<M: Numbered>(members: &Vec<M>, count: u32) -> Result<(), GatherCause> {
    match least_missing(members.as_slice(), count) {
        None => Ok(()),
        Some(number) => Err(GatherCause::Missing(number)),
    }
}

/// Returns the least number below `count` that none of these members has.
#[inline]
pub fn least_missing<M: Numbered>(members: &[M], count: u32) -> Option<u32> {
    for number in 0..count {
        let Some(_) = index_of(members, number) else {
            return Some(number);
        };
    }
    None
}

/// Returns the index of a member with this number.
#[inline]
pub fn index_of<M: Numbered>(members: &[M], number: u32) -> Option<usize> {
    for (index, member) in members.iter().enumerate() {
        if member.number() == number {
            return Some(index);
        }
    }
    None
}
