//! Replays operations on the crates `cidr`, `cidr_table`, `cidr_sets` and `cidr_ext`: it reads one a line and writes an
//! answer line for each.
//!
//! README.md beside `src` has the format.
#![forbid(unsafe_code)]

mod addresses;
mod answer;
mod bits;
mod calls;
mod compact;
mod conversions;
mod covers;
mod ext;
mod families;
mod faults;
mod hosts;
mod line_error;
mod networks;
mod operations;
mod pairs;
mod parsers;
mod prefixes;
mod queries;
mod refusals;
mod sets;
mod sizes;
mod tables;
mod tokens;
mod values;
mod walks;

use operations::respond;
use std::io::{self, BufRead, BufWriter, Write};

fn main() -> io::Result<()> {
    let mut writer = BufWriter::new(io::stdout().lock());
    for line in io::stdin().lock().split(b'\n') {
        writeln!(writer, "{}", respond(&line?))?;
    }
    writer.flush()
}
