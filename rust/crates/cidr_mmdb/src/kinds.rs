//! The types of data fields.

/// The type of a data field (Output Data Section).
#[derive(Clone, Copy, Debug, PartialEq, Eq)]
pub enum Kind {
    /// A place of the data section, where another field begins.
    Pointer,
    /// Characters in UTF-8.
    Utf8String,
    /// A binary64 of IEEE 754.
    Double,
    /// Any bytes.
    Bytes,
    /// An unsigned number of at most two bytes.
    Uint16,
    /// An unsigned number of at most four bytes.
    Uint32,
    /// Names, each with a value.
    Map,
    /// A signed number of at most four bytes, in two's complement if it has all four.
    Int32,
    /// An unsigned number of at most eight bytes.
    Uint64,
    /// An unsigned number of at most 16 bytes.
    Uint128,
    /// Values in order.
    Array,
    /// True or false.
    Boolean,
    /// A binary32 of IEEE 754.
    Float,
}

/// What the first bytes of a data field say.
#[derive(Clone, Copy, Debug, PartialEq, Eq)]
pub struct Field {
    /// Its type.
    pub kind: Kind,
    /// How many bytes it has; how many pairs a map or values an array; 0 or 1, which a boolean is; where a pointer points.
    pub size: u32,
    /// Where its payload begins.
    pub payload: usize,
}
