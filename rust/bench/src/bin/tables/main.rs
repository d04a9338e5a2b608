//! Smallest tables with the same forwarding, and what is found in tables made ready.
//!
//! The argument, `ipv4`, `ipv6` or `any`, which is `AnyIpCidr`, says of which type the networks of standard input are,
//! whose tables `check.py`, in the folder of this program, makes: it judges the answers.
//!
//! Each line of standard input is a row, a network and a number, or what is to be done with the rows since the last such
//! line: `smallest` and `holes` write the rows of the smallest table, without and with holes, where `none` stands for a
//! hole, and behind them whether the one without holes forwards the same; `time` writes how many rows there are, and for
//! both how many are left and the least microseconds of five turns.
//!
//! A line `ask` with a network is a look-up key. `find` writes the value that the rows made ready have for each key since
//! the last such line, or `none`, and fails where the rows themselves have another; `speed` writes how long these look-ups
//! take, and keeps the rows. Rows of `any` are looked up as they are.

mod answers;
mod failure;
mod finding;

use cidr::{AnyIpCidr, Ipv4Cidr, Ipv6Cidr};
use failure::Failure;

fn main() -> Result<(), Failure> {
    match std::env::args().nth(1).as_deref() {
        Some("ipv4") => answers::write::<Ipv4Cidr>(),
        Some("ipv6") => answers::write::<Ipv6Cidr>(),
        _ => answers::write::<AnyIpCidr>(),
    }
}
