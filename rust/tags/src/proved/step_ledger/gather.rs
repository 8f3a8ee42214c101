// Made of crates/step_ledger/src/gather.rt, where the contracts are, by rust/generate.

//! Gathers the members of a table one after another.

use crate::base::vec::Vec;

/// A table, or several that share their members, as it takes them in.
pub trait Gather {
    type Member;

    /// What holds the members taken in so far.
    type Gathering;

    fn take_first(&self, member: Self::Member) -> Self::Gathering;

    fn take_next(&self, gathering: &mut Self::Gathering, member: Self::Member);
}

/// Gathers all these members, from the last to the first.
#[inline]
pub fn gather_each<T: Gather>(table: &T, mut members: Vec<T::Member>) -> T::Gathering {
    let Some(last) = members.pop() else { unreachable!() };
    let mut gathering = table.take_first(last);
    while let Some(member) = members.pop() {
        table.take_next(&mut gathering, member);
    }
    gathering
}
