//! How a table is printed.

use crate::table::LpmTable;
use cidr::names::NetworkBits;
use core::fmt;

/// A table is printed as a map: `{10.0.0.0/8: 1, 10.1.0.0/16: 2}`, and with `{:#?}` each row on lines of its own.
impl<C: NetworkBits + Copy + fmt::Debug, V: fmt::Debug> fmt::Debug for LpmTable<C, V> {
    #[inline]
    fn fmt(&self, f: &mut fmt::Formatter<'_>) -> fmt::Result {
        if f.alternate() {
            write_lines(f, self.ascending())
        } else {
            write_map(f, self.ascending())
        }
    }
}

/// The rows as a map, each on lines of its own.
#[inline]
fn write_lines<C: fmt::Debug, V: fmt::Debug>(
    f: &mut fmt::Formatter<'_>,
    rows: &[(C, V)],
) -> fmt::Result {
    let mut map = f.debug_map();
    for row in rows {
        map.entry(&row.0, &row.1);
    }
    map.finish()
}

/// The rows as a map, on one line.
#[inline]
fn write_map<C: fmt::Debug, V: fmt::Debug>(
    f: &mut fmt::Formatter<'_>,
    rows: &[(C, V)],
) -> fmt::Result {
    f.write_str("{")?;
    let mut lead = "";
    for row in rows {
        write_row(f, lead, row)?;
        lead = ", ";
    }
    f.write_str("}")
}

/// A key with its value, behind what parts it from the row before.
#[inline]
fn write_row<C: fmt::Debug, V: fmt::Debug>(
    f: &mut fmt::Formatter<'_>,
    lead: &str,
    row: &(C, V),
) -> fmt::Result {
    f.write_str(lead)?;
    row.0.fmt(f)?;
    f.write_str(": ")?;
    row.1.fmt(f)
}
