//! Look-up tables in files.

use crate::codes::{LONG, NO_FILE, NO_ROOM, OK, OTHER_VERSION, SHORT, VALUES};
use crate::tables::{NO_ROW, words_fault_code};
use crate::values::CValue;
use cidr_files::{
    Counts, FileAddress, FileFault, Ipv4Bytes, Ipv6Bytes, TableFault, checked, counts, open,
};
use cidr_lookup::find;
use cidr_support::alloc::Global;

/// The size of the header of a file.
const HEADER: usize = 64;

/// Where the parts of a table lie, in bytes from the beginning of the file, and how many elements they have.
#[repr(C)]
#[derive(Clone, Copy)]
pub struct CFileTable {
    /// Where the entries of the blocks of addresses begin.
    pub first: usize,
    /// Where the words of the nodes begin.
    pub words: usize,
    /// Where the first addresses of the rows' networks begin.
    pub addresses: usize,
    /// Where their prefix lengths begin.
    pub lengths: usize,
    /// Where the offsets of the values begin.
    pub offsets: usize,
    /// Where the values begin.
    pub values: usize,
    /// How many bytes the values have.
    pub values_len: usize,
    /// How many rows there are.
    pub rows: u32,
    /// How many entries of blocks.
    pub entries: u32,
    /// How many words of nodes.
    pub words_len: u32,
    /// How many steps of six bits there are behind the first bits.
    pub steps: u32,
}

/// The two tables of a file.
#[repr(C)]
#[derive(Clone, Copy)]
pub struct CFile {
    /// The table of IPv4 networks.
    pub ipv4: CFileTable,
    /// The table of IPv6 networks.
    pub ipv6: CFileTable,
}

/// What a look-up finds: a row, and where its value lies; or `u32::MAX` and zeros.
#[repr(C)]
#[derive(Clone, Copy)]
pub struct CFound {
    /// Where the value begins, in bytes from the beginning of the file.
    pub value: usize,
    /// How many bytes it has.
    pub value_len: u32,
    /// The row among those of its family.
    pub row: u32,
}

/// Says where the tables of a file lie, however long it is: 0, or the number of the first error, of the first word, the
/// version or the length, and then `file` is as it was.
#[inline]
pub fn pcidr_file_open(bytes: &[u8], file: &mut CFile) -> u32 {
    match open(bytes) {
        Ok(_) => {
            put_file(bytes, file);
            OK
        }
        Err(fault) => file_fault_code(&fault),
    }
}

/// 0 where the bytes are a file of tables, else the number of what is wrong with them first. It builds the words of each
/// table anew and compares them as it goes, and allocates its networks and their ranges.
#[inline]
pub fn pcidr_file_check(alloc: Global, bytes: &[u8]) -> u32 {
    match checked(alloc, bytes) {
        Ok(_) => OK,
        Err(fault) => file_fault_code(&fault),
    }
}

/// The longest match of an address, with its value: 1, or 0 where there is none, and for a value that is no address. It
/// reads nothing outside of the bytes, whatever they and `file` hold, and allocates nothing.
#[inline]
pub fn pcidr_file_lookup(
    bytes: &[u8],
    file: &CFile,
    address: &CValue,
    found: &mut CFound,
) -> u32 {
    *found = found_in(bytes, file, address);
    u32::from(found.row != NO_ROW)
}

/// The same of each of many, at its index of `out`: 0, or the number of too little room.
#[inline]
pub fn pcidr_file_lookup_each(
    bytes: &[u8],
    file: &CFile,
    asked: &[CValue],
    out: &mut [CFound],
) -> u32 {
    if out.len() < asked.len() {
        return NO_ROOM;
    }
    for i in 0..asked.len() {
        out[i] = found_in(bytes, file, &asked[i]);
    }
    OK
}

/// 1 where an address is in one of the networks, and 0 where not, and for a value that is no address. It reads nothing
/// outside of the bytes, whatever they and `file` hold, and allocates nothing.
#[inline]
pub fn pcidr_set_has(bytes: &[u8], file: &CFile, address: &CValue) -> u32 {
    u32::from(has_in(bytes, file, address))
}

/// The same of each of many, at its index of `out`: 0, or the number of too little room.
#[inline]
pub fn pcidr_set_has_each(
    bytes: &[u8],
    file: &CFile,
    asked: &[CValue],
    out: &mut [u8],
) -> u32 {
    if out.len() < asked.len() {
        return NO_ROOM;
    }
    for i in 0..asked.len() {
        out[i] = has_in(bytes, file, &asked[i]);
    }
    OK
}

/// The number of what is wrong with a file.
#[inline]
fn file_fault_code(fault: &FileFault) -> u32 {
    match fault {
        FileFault::Magic => NO_FILE,
        FileFault::Old | FileFault::Version(_) => OTHER_VERSION,
        FileFault::Short => SHORT,
        FileFault::Long => LONG,
        FileFault::Ipv4(fault) | FileFault::Ipv6(fault) => table_fault_code(fault),
    }
}

/// The number of what is wrong with a table.
#[inline]
fn table_fault_code(fault: &TableFault) -> u32 {
    match fault {
        TableFault::Words(fault) => words_fault_code(fault),
        TableFault::Offsets => VALUES,
    }
}

/// Makes `file` say where the tables of the bytes lie.
#[inline]
fn put_file(bytes: &[u8], file: &mut CFile) {
    let (ipv4, ipv6) = counts(bytes);
    let end = put_table(HEADER, 4, &ipv4, &mut file.ipv4);
    put_table(end, 16, &ipv6, &mut file.ipv6);
}

/// Makes a table one whose parts begin at a place, and whose addresses have so many bytes, and returns where they end.
fn put_table(place: usize, size: usize, counts: &Counts, table: &mut CFileTable) -> usize {
    let rows = counts.rows as usize;
    let entries = counts.entries as usize;
    let words = counts.words as usize;
    let values = counts.values as usize;
    table.first = place;
    table.words = behind(table.first, 4 * entries);
    table.addresses = behind(table.words, 4 * words);
    table.lengths = behind(table.addresses, size * rows);
    table.offsets = behind(table.lengths, rows);
    table.values = behind(table.offsets, 4 * (rows + 1));
    table.values_len = values;
    table.rows = counts.rows;
    table.entries = counts.entries;
    table.words_len = counts.words;
    table.steps = counts.steps;
    behind(table.values, values)
}

/// Where the part behind one begins that begins at a place.
#[inline]
fn behind(place: usize, size: usize) -> usize {
    place + (size + 7) / 8 * 8
}

/// What is found of a value.
#[inline(always)]
fn found_in(bytes: &[u8], file: &CFile, asked: &CValue) -> CFound {
    if let Some(address) = ipv4_address(asked) {
        return found_at(bytes, &file.ipv4, address);
    }
    if let Some(address) = ipv6_address(asked) {
        return found_at(bytes, &file.ipv6, address);
    }
    nothing()
}

/// What is found in a table. No branch hangs on whether there is a row, which a processor can't foresee: where there is
/// none, the offsets of the first row are read.
#[inline(always)]
fn found_at<W: FileAddress>(bytes: &[u8], table: &CFileTable, address: W) -> CFound {
    let end = end_at(bytes, table, address);
    if table.rows == 0 {
        return nothing();
    }
    found_of(end, place_at(bytes, table, end))
}

/// How many rows there are up to that of the longest match, or 0 where there is none.
#[inline(always)]
fn end_at<W: FileAddress>(bytes: &[u8], table: &CFileTable, address: W) -> u32 {
    match row_at(bytes, table, address) {
        Some(row) => row as u32 + 1,
        None => 0,
    }
}

/// Where the value of the last of so many rows, or of the first one, begins and how many bytes it has, or twice 0 if what
/// tells it or the value does not lie inside of the bytes.
#[inline(always)]
fn place_at(bytes: &[u8], table: &CFileTable, end: u32) -> (usize, u32) {
    match value_at(bytes, table, end.saturating_sub(1) as usize) {
        Some(place) => place,
        None => (0, 0),
    }
}

/// The last of so many rows and its value, or nothing where there are none.
#[inline(always)]
fn found_of(end: u32, place: (usize, u32)) -> CFound {
    CFound {
        value: if end > 0 { place.0 } else { 0 },
        value_len: if end > 0 { place.1 } else { 0 },
        row: end.wrapping_sub(1),
    }
}

/// The row of the longest match of an address in a table, if what tells it lies inside of the bytes.
#[inline(always)]
fn row_at<W: FileAddress>(bytes: &[u8], table: &CFileTable, address: W) -> Option<usize> {
    let first = part_at(bytes, table.first, 4 * table.entries as usize)?;
    let words = part_at(bytes, table.words, 4 * table.words_len as usize)?;
    let (first, _) = first.as_chunks::<4>();
    let (words, _) = words.as_chunks::<4>();
    let row = find(&first, &words, table.steps, address)?;
    if row >= table.rows as usize {
        return None;
    }
    Some(row)
}

/// Where the value of a row begins and how many bytes it has, if what tells it and the values lie inside of the bytes.
#[inline(always)]
fn value_at(bytes: &[u8], table: &CFileTable, row: usize) -> Option<(usize, u32)> {
    let offsets = part_at(bytes, table.offsets, 4 * (table.rows as usize + 1))?;
    let values = part_at(bytes, table.values, table.values_len)?;
    let (from, to) = ends_of(offsets, values.len(), row)?;
    Some((table.values + from as usize, to - from))
}

/// Where the value of a row begins and ends among so many bytes of values, if it lies among them.
#[inline(always)]
fn ends_of(offsets: &[u8], values: usize, row: usize) -> Option<(u32, u32)> {
    let (offsets, _) = offsets.as_chunks::<4>();
    let from = u32::from_le_bytes(offsets[row]);
    let to = u32::from_le_bytes(offsets[row + 1]);
    if from > to || to as usize > values {
        return None;
    }
    Some((from, to))
}

/// What says that nothing is found.
#[inline(always)]
fn nothing() -> CFound {
    CFound {
        value: 0,
        value_len: 0,
        row: NO_ROW,
    }
}

/// 1 where the value is an address in one of the networks, and 0 where not.
#[inline(always)]
fn has_in(bytes: &[u8], file: &CFile, asked: &CValue) -> u8 {
    if let Some(address) = ipv4_address(asked) {
        return has_at(bytes, &file.ipv4, address);
    }
    if let Some(address) = ipv6_address(asked) {
        return has_at(bytes, &file.ipv6, address);
    }
    0
}

/// 1 where an address is in one of the networks of a table, and 0 where not.
#[inline(always)]
fn has_at<W: FileAddress>(bytes: &[u8], table: &CFileTable, address: W) -> u8 {
    match row_at(bytes, table, address) {
        Some(_) => 1,
        None => 0,
    }
}

/// So many bytes from a place on, if they lie inside of the bytes.
#[inline(always)]
fn part_at(bytes: &[u8], place: usize, size: usize) -> Option<&[u8]> {
    if place.saturating_add(size) > bytes.len() {
        return None;
    }
    let rest = &bytes[place..];
    Some(&rest[..size])
}

/// The IPv4 address that a value is, if it is one.
#[inline(always)]
fn ipv4_address(value: &CValue) -> Option<Ipv4Bytes> {
    if value.tag != 32 || value.high != 0 || value.low >= 1 << 32 {
        return None;
    }
    Some((value.low as u32).to_le_bytes())
}

/// The IPv6 address that a value is, if it is one.
#[inline(always)]
fn ipv6_address(value: &CValue) -> Option<Ipv6Bytes> {
    if value.tag != 192 {
        return None;
    }
    Some([value.high.to_le_bytes(), value.low.to_le_bytes()])
}
