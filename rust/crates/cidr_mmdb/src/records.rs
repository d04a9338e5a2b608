//! How large a record of the search tree is.

/// How many bits a record has (Node Layout): a node is two records.
#[derive(Clone, Copy, Debug, PartialEq, Eq)]
pub enum RecordSize {
    /// 24 bits: a node takes 6 bytes.
    Bits24,
    /// 28 bits: a node takes 7 bytes, and the one in the middle has the highest four bits of both records.
    Bits28,
    /// 32 bits: a node takes 8 bytes.
    Bits32,
}

/// How many bytes a node takes.
#[inline]
pub(crate) fn node_bytes(size: RecordSize) -> usize {
    match size {
        RecordSize::Bits24 => 6,
        RecordSize::Bits28 => 7,
        RecordSize::Bits32 => 8,
    }
}
