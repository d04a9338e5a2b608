//! Files of look-ups in the place of a table.

use cidr_support::vec::Vec;
use crate::errors::{CommandError, FileError};
use crate::input::table::{Answer, LookUps, RowLookUps, push_match, push_none};
use cidr::{BitString, FamilyCidr, IpAddr, Ipv4Cidr, Ipv6Cidr};
use cidr_files::{
    FileAddress, FileFault, FileTable, FileTables, Ipv4Bytes, Ipv6Bytes, TableFault, checked,
    lookup,
};
use cidr_io::block::Block;
use cidr_io::memory::Memory;
use cidr_io::sink::{OutputFailed, Sink};
use cidr_lists::errors::LineError;
use cidr_lists::formats::LineFormat;
use cidr_lists::forms::check_value;
use cidr_lists::lists::Lists;
use cidr_lists::printing::block_text;
use cidr_lists::sets::Sets;
use cidr_lookup::{Address, TableError};
use cidr_support::alloc::{AllocError, Global};

/// The tables of a file of look-ups, which were checked.
pub struct Stored<'a> {
    tables: FileTables<'a>,
}

impl<'a> Stored<'a> {
    /// The tables of the bytes of a file, or what is told of what is wrong with them. The other error is that there is
    /// no memory to see.
    #[inline]
    fn of_bytes(alloc: Global, bytes: &'a [u8]) -> Result<Result<Stored<'a>, FileError>, AllocError> {
        match checked(alloc, bytes) {
            Ok(tables) => Ok(Ok(Stored { tables })),
            Err(fault) => match file_error_of(&fault) {
                Some(why) => Ok(Err(why)),
                None => Err(AllocError),
            },
        }
    }

    /// The tables of the bytes of the file of a name: one pass over them.
    #[inline]
    pub fn check<'n, M: Memory>(
        memory: &mut M,
        name: &'n str,
        bytes: &'a [u8],
    ) -> Result<Stored<'a>, CommandError<'n>> {
        let made = Stored::of_bytes(memory.alloc(), bytes);
        match memory.watch(made)? {
            Ok(stored) => Ok(stored),
            Err(why) => Err(CommandError::File(name, why)),
        }
    }

    /// Sees that the values can be told in a format. The error is that of the first row whose value can't, with its number
    /// among the rows of its family, from 1 on, those of IPv4 before those of IPv6.
    #[inline]
    pub fn check_values<'n>(
        &self,
        format: LineFormat,
        name: &'n str,
    ) -> Result<(), CommandError<'n>> {
        if let Err((number, e)) = check_part::<Ipv4Bytes>(format, &self.tables.ipv4) {
            return Err(CommandError::Line(name, number, e));
        }
        if let Err((number, e)) = check_part::<Ipv6Bytes>(format, &self.tables.ipv6) {
            return Err(CommandError::Line(name, number, e));
        }
        Ok(())
    }

    /// The addresses of the networks of its rows. The error is that there is no memory.
    #[inline]
    pub fn addresses(&self, alloc: Global) -> Result<Sets, AllocError> {
        let mut lists = Lists::new(alloc);
        push_networks::<Ipv4Bytes, Ipv4Cidr>(&self.tables.ipv4, &mut lists.v4)?;
        push_networks::<Ipv6Bytes, Ipv6Cidr>(&self.tables.ipv6, &mut lists.v6)?;
        Ok(Sets::of_lists(lists))
    }

    /// The length of the longest network that an address is in, and its value.
    fn stored_row(&self, address: &IpAddr) -> Option<(u8, &'a [u8])> {
        match address {
            IpAddr::V4(address) => {
                let bytes = Ipv4Bytes::of(u128::from(address.to_bits()));
                found_in(&self.tables.ipv4, bytes)
            }
            IpAddr::V6(address) => {
                let bytes = Ipv6Bytes::of(address.to_bits());
                found_in(&self.tables.ipv6, bytes)
            }
        }
    }
}

/// The value of a row; no bytes where the offsets are wrong.
fn stored_value<'a>(part: &FileTable<'a>, row: usize) -> &'a [u8] {
    let (offsets, _) = part.offsets.as_chunks::<4>();
    if row + 1 >= offsets.len() {
        return &[];
    }
    let from = u32::from_le_bytes(offsets[row]);
    let to = u32::from_le_bytes(offsets[row + 1]);
    if from > to || to as usize > part.values.len() {
        return &[];
    }
    &part.values[from as usize..to as usize]
}

/// Sees that the values of the rows of a table can be told in a format. The error is that of the first which can't, with
/// the number of its row, from 1 on.
#[inline]
fn check_part<W: FileAddress>(
    format: LineFormat,
    part: &FileTable<'_>,
) -> Result<(), (u64, LineError)> {
    let addresses = W::addresses(part.addresses);
    for row in 0..addresses.len().min(part.lengths.len()) {
        if let Err(e) = check_value(format, stored_value(part, row)) {
            return Err((row as u64 + 1, e));
        }
    }
    Ok(())
}

/// Adds the networks of the rows of a table to others of their family.
#[inline]
fn push_networks<W: FileAddress, C: FamilyCidr>(
    part: &FileTable<'_>,
    networks: &mut Vec<C>,
) -> Result<(), AllocError> {
    let addresses = W::addresses(part.addresses);
    for row in 0..addresses.len().min(part.lengths.len()) {
        let mut network = C::new_host(C::from_number(addresses[row].number()));
        network.clip(usize::from(part.lengths[row]));
        networks.push(network)?;
    }
    Ok(())
}

/// What is told of what is wrong with keys, or nothing where there was no memory to see.
#[inline]
fn keys_error_of(error: &TableError) -> Option<FileError> {
    match error {
        TableError::NoMemory => None,
        TableError::TooMany | TableError::Refused(_) | TableError::TooLarge => {
            Some(FileError::Changed)
        }
    }
}

/// The same of words.
#[inline]
fn words_error_of(fault: &cidr_lookup::WordsFault) -> Option<FileError> {
    match fault {
        cidr_lookup::WordsFault::Keys(error) => keys_error_of(error),
        cidr_lookup::WordsFault::Steps
        | cidr_lookup::WordsFault::TooLong
        | cidr_lookup::WordsFault::First(_)
        | cidr_lookup::WordsFault::Word(_) => Some(FileError::Changed),
    }
}

/// The same of a table.
#[inline]
fn table_error_of(fault: &TableFault) -> Option<FileError> {
    match fault {
        TableFault::Words(fault) => words_error_of(fault),
        TableFault::Offsets => Some(FileError::Changed),
    }
}

/// The same of a file.
fn file_error_of(fault: &FileFault) -> Option<FileError> {
    match fault {
        FileFault::Magic => Some(FileError::Unlike),
        FileFault::Old => Some(FileError::Old),
        FileFault::Version(_) => Some(FileError::Version),
        FileFault::Short => Some(FileError::Short),
        FileFault::Long => Some(FileError::Long),
        FileFault::Ipv4(fault) | FileFault::Ipv6(fault) => table_error_of(fault),
    }
}

/// The length of the longest network of a table that an address is in, and its value.
#[inline]
fn found_in<'a, W: FileAddress>(part: &FileTable<'a>, address: W) -> Option<(u8, &'a [u8])> {
    let (row, value) = lookup(part, address)?;
    Some((part.lengths[row], value))
}

impl LookUps for Stored<'_> {
    #[inline]
    fn find(&self, _address: &IpAddr) -> Option<Answer> {
        None
    }

    #[inline]
    fn push<S: Sink>(
        &self,
        address: &IpAddr,
        _found: Option<Answer>,
        block: &mut Block,
        out: &mut S,
    ) -> Result<bool, OutputFailed> {
        let text = address.to_text();
        match self.stored_row(address) {
            Some((len, value)) => push_match(block, out, text, block_text(address, len), value),
            None => push_none(block, out, text),
        }
    }
}

impl RowLookUps for Stored<'_> {
    #[inline]
    fn row(&self, address: &IpAddr) -> Option<(u8, &[u8])> {
        self.stored_row(address)
    }
}
