//! Tables of networks with a value each: the smallest one with the same forwarding, and whether two forward the same. The first
//! error is a row whose value is no network, and then too little room; no memory may come before either. After an error the room
//! is as it was.

use cidr_support::vec::Vec;
use crate::codes::{NO_MEMORY, NO_VALUE, OK};
use crate::finding::{put_list, yes_or_no};
use crate::values::{CValue, put_network, value_network};
use cidr::AnyIpCidr;
use cidr_forwarding::{SmallestTable, forwards_same};
use cidr_table::LpmTable;
use cidr_support::alloc::{AllocError, Global};

/// A row of a table.
#[repr(C)]
#[derive(Clone, Copy)]
pub struct CRow {
    /// The network.
    pub network: CValue,
    /// What its addresses are forwarded to: any number.
    pub value: u64,
}

/// The table of rows, or the number of the error.
fn table_of(alloc: Global, rows: &[CRow]) -> Result<LpmTable<AnyIpCidr, u64>, u32> {
    let Ok(mut listed) = Vec::with_capacity(alloc, rows.len()) else {
        return Err(NO_MEMORY);
    };
    for row in rows {
        let Some(network) = value_network(&row.network) else {
            return Err(NO_VALUE);
        };
        let Ok(()) = listed.push((network, row.value)) else {
            return Err(NO_MEMORY);
        };
    }
    Ok(LpmTable::from_rows(listed))
}

/// The rows of a table.
#[inline]
fn rows_in(table: &LpmTable<AnyIpCidr, u64>) -> &[(AnyIpCidr, u64)] {
    table.iter().as_slice()
}

/// Rows as C has them.
#[inline]
fn c_rows(alloc: Global, listed: &[(AnyIpCidr, u64)]) -> Result<Vec<CRow>, AllocError> {
    let mut rows = Vec::with_capacity(alloc, listed.len())?;
    for row in listed {
        rows.push(c_row(&row.0, row.1))?;
    }
    Ok(rows)
}

/// A row as C has it.
fn c_row(network: &AnyIpCidr, value: u64) -> CRow {
    let mut row = CRow {
        network: CValue {
            high: 0,
            low: 0,
            tag: 0,
            zero_17: 0,
            zero_18: 0,
            zero_20: 0,
        },
        value,
    };
    put_network(network, &mut row.network);
    row
}

/// The smallest table with the same forwarding as that of some rows, ascending, in a room, of which `count` becomes the number of
/// rows: each address has the same value in both, or in neither one, and no table of fewer rows has that. Where there is too
/// little room, `count` becomes how many are needed; there are at most as many as rows.
pub fn pcidr_smallest(
    alloc: Global,
    rows: &[CRow],
    out: &mut [CRow],
    count: &mut usize,
) -> u32 {
    let table = match table_of(alloc, rows) {
        Ok(table) => table,
        Err(code) => return code,
    };
    let Ok(smallest) = table.smallest(alloc) else {
        return NO_MEMORY;
    };
    match c_rows(alloc, rows_in(&smallest)) {
        Ok(rows) => put_list(rows.as_slice(), out, count),
        Err(_) => NO_MEMORY,
    }
}

/// Whether the tables of two lists of rows forward the same, each address to the same value, or to none in both: 0, and 1 or 0
/// in `answer`; or the number of the error.
pub fn pcidr_forwards_same(
    alloc: Global,
    these: &[CRow],
    those: &[CRow],
    answer: &mut u32,
) -> u32 {
    match (table_of(alloc, these), table_of(alloc, those)) {
        (Ok(these), Ok(those)) => {
            *answer = yes_or_no(forwards_same(&these, &those));
            OK
        }
        (Err(code), _) => code,
        (_, Err(code)) => code,
    }
}
