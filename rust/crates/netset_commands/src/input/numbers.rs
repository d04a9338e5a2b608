//! The values of tables by numbers. The calls of `cidr_forwarding` take values of which `==` tells equality, as it does for
//! numbers: equal bytes have the same number here, and others another one.

use cidr_support::vec::Vec;
use crate::input::tables::PlainTable;
use cidr::FamilyCidr;
use cidr_lists::rows::{Span, value_at_span};
use cidr_table::LpmTable;
use cidr_support::alloc::{AllocError, Global};

/// The values of tables, ascending by their bytes, some of them perhaps equal.
pub struct Numbers<'a> {
    values: Vec<&'a [u8]>,
}

/// Whether a value is less than another one, by their bytes.
#[inline]
fn is_less(one: &[u8], other: &[u8]) -> bool {
    one.cmp(other).is_lt()
}

/// Appends the values of rows.
#[inline]
fn push_values<'a, C>(
    values: &mut Vec<&'a [u8]>,
    rows: &[(C, Span)],
    all: &'a [u8],
) -> Result<(), AllocError> {
    for row in rows {
        values.push(value_at_span(all, row.1))?;
    }
    Ok(())
}

/// Appends the values of a table.
#[inline]
fn push_table<'a>(values: &mut Vec<&'a [u8]>, table: &'a PlainTable) -> Result<(), AllocError> {
    let all = table.values.as_slice();
    push_values(values, table.v4.iter().as_slice(), all)?;
    push_values(values, table.v6.iter().as_slice(), all)
}

impl<'a> Numbers<'a> {
    /// The numbers of these values.
    #[inline]
    fn of_values(mut values: Vec<&'a [u8]>) -> Numbers<'a> {
        values.sort_unstable();
        Numbers { values }
    }

    /// The numbers of the values of a table. The error is that there is no memory.
    #[inline]
    pub fn of_table(alloc: Global, table: &'a PlainTable) -> Result<Numbers<'a>, AllocError> {
        let mut values = Vec::new(alloc);
        push_table(&mut values, table)?;
        Ok(Numbers::of_values(values))
    }

    /// The numbers of the values of two tables, which are the same in both. The error is that there is no memory.
    #[inline]
    pub fn of_tables(
        alloc: Global,
        one: &'a PlainTable,
        other: &'a PlainTable,
    ) -> Result<Numbers<'a>, AllocError> {
        let mut values = Vec::new(alloc);
        push_table(&mut values, one)?;
        push_table(&mut values, other)?;
        Ok(Numbers::of_values(values))
    }

    /// The number of a value.
    #[inline]
    fn number(&self, value: &[u8]) -> usize {
        self.values.as_slice().partition_point(
            |other|
            { is_less(other, value) },
        )
    }

    /// The value of a number.
    #[inline]
    pub fn value(&self, number: usize) -> &'a [u8] {
        match self.values.get(number) {
            Some(value) => value,
            None => &[],
        }
    }

    /// The table of the same networks, each with the number of its value, which stands among the bytes of all.
    pub fn table<C: FamilyCidr>(
        &self,
        alloc: Global,
        table: &LpmTable<C, Span>,
        all: &[u8],
    ) -> Result<LpmTable<C, usize>, AllocError> {
        let mut rows = Vec::with_capacity(alloc, table.len())?;
        for row in table.iter().as_slice() {
            // the call tells the proof that the prefix length fits
            row.0.network_length();
            let number = self.number(value_at_span(all, row.1));
            rows.push((row.0, number))?;
        }
        Ok(LpmTable::from_rows(rows))
    }
}
