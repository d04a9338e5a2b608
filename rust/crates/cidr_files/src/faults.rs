//! What is wrong with a file.

use cidr_lookup::TableError;
use cidr_support::alloc::AllocError;
use core::error::Error;
use core::fmt;

/// What is wrong with a table: the first thing, or that there was no memory to see.
#[derive(Debug, PartialEq)]
pub enum TableFault {
    /// The keys or the words: the message of that. That of the keys may be that there was no memory to check the table: it
    /// may be right or wrong, in whatever way.
    Words(cidr_lookup::WordsFault),
    /// The values don't lie one behind the other, or there are not as many as keys: `values not one behind the other`.
    Offsets,
}

impl fmt::Display for TableFault {
    #[inline]
    fn fmt(&self, f: &mut fmt::Formatter<'_>) -> fmt::Result {
        match self {
            TableFault::Words(fault) => write!(f, "{fault}"),
            TableFault::Offsets => f.write_str("values not one behind the other"),
        }
    }
}

impl Error for TableFault {}

/// What is wrong with a file: the first thing.
#[derive(Debug, PartialEq)]
pub enum FileFault {
    /// It doesn't begin with the bytes of a file of tables: `no file of tables`.
    Magic,
    /// It is of version 1 to 4, which earlier releases wrote: `of an older version, which an older netset compile made: compile
    /// the table anew`.
    Old,
    /// It is of this version, and not of version 5, which this library reads: `of another version than 5: 6`.
    Version(u32),
    /// It is shorter than its header says, or has not all of its header: `shorter than its header says`.
    Short,
    /// It is longer than its header says: `longer than its header says`.
    Long,
    /// The table of IPv4 networks is none, and this is why, or there was no memory to see: `no table of IPv4: not of
    /// the keys: entry 2`.
    Ipv4(TableFault),
    /// The same of the table of IPv6 networks; that of IPv4 networks is right.
    Ipv6(TableFault),
}

impl fmt::Display for FileFault {
    fn fmt(&self, f: &mut fmt::Formatter<'_>) -> fmt::Result {
        match self {
            FileFault::Magic => f.write_str("no file of tables"),
            FileFault::Old => f.write_str(
                "of an older version, which an older netset compile made: compile the table anew",
            ),
            FileFault::Version(other) => write!(f, "of another version than 5: {other}"),
            FileFault::Short => f.write_str("shorter than its header says"),
            FileFault::Long => f.write_str("longer than its header says"),
            FileFault::Ipv4(fault) => write!(f, "no table of IPv4: {fault}"),
            FileFault::Ipv6(fault) => write!(f, "no table of IPv6: {fault}"),
        }
    }
}

impl Error for FileFault {}

/// Why no file was made; [`written`](crate::written) says what comes first.
#[derive(Debug, PartialEq)]
pub enum WriteError {
    /// The keys have no look-up table, or there was no memory: the message of that.
    Table(TableError),
    /// The values don't lie one behind the other, there are not as many as keys, or they have 2^32 bytes or more
    /// together: `values not one behind the other, or too long`.
    Values,
}

impl fmt::Display for WriteError {
    #[inline]
    fn fmt(&self, f: &mut fmt::Formatter<'_>) -> fmt::Result {
        match self {
            WriteError::Table(e) => write!(f, "{e}"),
            WriteError::Values => f.write_str("values not one behind the other, or too long"),
        }
    }
}

impl Error for WriteError {}

impl From<AllocError> for WriteError {
    #[inline]
    fn from(_error: AllocError) -> WriteError {
        WriteError::Table(TableError::NoMemory)
    }
}

impl From<TableError> for WriteError {
    #[inline]
    fn from(error: TableError) -> WriteError {
        WriteError::Table(error)
    }
}
