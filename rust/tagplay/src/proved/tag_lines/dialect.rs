// Made of crates/tag_lines/src/dialect.rt, where the contracts are, by rust/generate.

//! Which commands a script may use.

/// Which commands a script may use.
#[derive(Clone, Copy, Debug, PartialEq, Eq)]
pub enum Dialect {
    /// Those of a single caller on plain words.
    Plain,
    /// Those of `Plain`, and those that need a shared map: reserved tags, posts, waits and resizes.
    Shared,
}

impl Dialect {
    /// The item in a script over a shared map, `None` in a plain one.
    pub(crate) fn only_shared<T>(self, item: T) -> Option<T> {
        match self {
            Dialect::Plain => None,
            Dialect::Shared => Some(item),
        }
    }
}
