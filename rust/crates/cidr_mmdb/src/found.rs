//! What a record leads to.

/// What the search tree has for an address.
#[derive(Clone, Copy, Debug, PartialEq, Eq)]
pub enum Found {
    /// A value, which begins at this place of the data section.
    Value(usize),
    /// No value.
    Nothing,
    /// The tree is broken there: the walk ends at a node, or at a record that leads to no place of the data section.
    Broken,
}
