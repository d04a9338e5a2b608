//! Parsers of strings in other forms than `FromStr` parses.
//!
//! `FromStr` is strict. The parsers with `cidr` and `inet` in their names take a parser of the address, as
//! `Ipv4Addr::from_str` or a closure around one of the loose parsers or around your own: it gets what precedes the last
//! slash of a string, or the whole string where there is none. The `full` forms have a second parser for strings with
//! no slash; those with `ignore_hostbits` ignore set bits after the prefix, and return the network that has the
//! address; those with `any` know `any`. The caller has to ensure that a parser that is passed may be called with every
//! string, as a function or closure with no condition of its own may.
//!
//! The loose parsers take IPv4 addresses as POSIX `inet_addr` has them, the short ones the first octets of a network.

mod any;
mod hosts;
mod ignore_hostbits;
mod loose;
mod networks;
mod parts;
mod short;

pub use any::{
    parse_any_cidr, parse_any_cidr_full, parse_any_cidr_full_ignore_hostbits,
    parse_any_cidr_ignore_hostbits,
};
pub use hosts::{parse_inet, parse_inet_full};
pub use ignore_hostbits::{parse_cidr_full_ignore_hostbits, parse_cidr_ignore_hostbits};
pub use loose::{inet_addr, parse_loose_ip, parse_loose_ipv4};
pub use networks::{parse_cidr, parse_cidr_full};
pub use short::{
    parse_short_any_ip_cidr, parse_short_ip_address_as_cidr, parse_short_ip_cidr,
    parse_short_ipv4_address_as_cidr, parse_short_ipv4_cidr,
};
