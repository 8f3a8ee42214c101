//! What there is once for each set of tags.

use crate::options::Kind;
use core::ops::Index;

/// A value for each of the two sets.
#[derive(Clone, Copy, Debug, Default, PartialEq, Eq)]
pub(crate) struct BySet<V> {
    ordinary: V,
    reserved: V,
}

impl<V> BySet<V> {
    pub const fn new(ordinary: V, reserved: V) -> BySet<V> {
        BySet { ordinary, reserved }
    }

    /// Both values, with their sets.
    pub fn iter(&self) -> impl Iterator<Item = (Kind, &V)> {
        [(Kind::Ordinary, &self.ordinary), (Kind::Reserved, &self.reserved)].into_iter()
    }

    /// Makes a value of those of a set, for each.
    #[inline]
    pub fn with(self, other: BySet<V>, join: impl Fn(V, V) -> V) -> BySet<V> {
        BySet {
            ordinary: join(self.ordinary, other.ordinary),
            reserved: join(self.reserved, other.reserved),
        }
    }
}

impl<V: Default> BySet<V> {
    /// A value for one set, and nothing for the other one.
    #[inline]
    pub fn of(kind: Kind, value: V) -> BySet<V> {
        match kind {
            Kind::Ordinary => BySet::new(value, V::default()),
            Kind::Reserved => BySet::new(V::default(), value),
        }
    }
}

impl<V> Index<Kind> for BySet<V> {
    type Output = V;

    #[inline]
    fn index(&self, kind: Kind) -> &V {
        match kind {
            Kind::Ordinary => &self.ordinary,
            Kind::Reserved => &self.reserved,
        }
    }
}
