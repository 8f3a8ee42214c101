// Made of crates/step_ledger/src/source.rt, where the contracts are, by rust/generate.

//! Hands out the members of a table one after another.

use crate::base::vec::{AllocError, Global, Vec};

/// A table that makes its members in the order of their numbers, from a seat with the records of all.
pub trait MemberSource {
    type Member;

    type Rest;

    fn next_member(&self, alloc: Global, rest: &mut Self::Rest, number: u32) -> Result<Self::Member, AllocError>;
}

/// Returns all members, in the order of their numbers.
#[inline]
pub fn hand_out<T: MemberSource>(
    alloc: Global,
    table: &T,
    mut rest: T::Rest,
    count: u32,
) -> Result<Vec<T::Member>, AllocError> {
    let mut members = Vec::new(alloc);
    for number in 0..count {
        let member = table.next_member(alloc, &mut rest, number)?;
        members.push(member)?;
    }
    Ok(members)
}
