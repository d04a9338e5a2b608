//! What this program fails by.
use cidr::errors::NetworkParseError;
use cidr_lookup::TableError;
use cidr_support::alloc::AllocError;
use std::io;
use core::num::ParseIntError;

/// What this program fails by.
// What is told of it is what `Debug` prints.
#[allow(dead_code)]
#[derive(Debug)]
pub enum Failure {
    Table(TableError),
    Network(NetworkParseError),
    Value(ParseIntError),
    /// A look-up of a table made ready is another than that of its rows.
    Differs,
    NoMemory,
    System(io::Error),
}

impl From<TableError> for Failure {
    fn from(error: TableError) -> Failure {
        Failure::Table(error)
    }
}

impl From<NetworkParseError> for Failure {
    fn from(error: NetworkParseError) -> Failure {
        Failure::Network(error)
    }
}

impl From<ParseIntError> for Failure {
    fn from(error: ParseIntError) -> Failure {
        Failure::Value(error)
    }
}

impl From<AllocError> for Failure {
    fn from(_error: AllocError) -> Failure {
        Failure::NoMemory
    }
}

impl From<io::Error> for Failure {
    fn from(error: io::Error) -> Failure {
        Failure::System(error)
    }
}
