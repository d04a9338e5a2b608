//! Calls on networks and addresses beyond those of the crate `cidr`, proved from its public contracts.
//!
//! They are traits, which a `use` brings in. `NetworkExt` has networks as the nodes of a tree (`parent`, `halves`,
//! `sibling`, `supernet`, `overlaps`, `spanning`), `IpCidrExt` the same for `IpCidr`, `CidrExt` what is counted
//! (`subnets`, `next_network`, `host_mask`, `nth`, `position`, `usable_hosts`), `AddressExt` numbers and masks of
//! addresses, `CidrMaskText` masks in strings, `CidrReverseName` and `AddressReverseName` names in reverse DNS, and
//! `SpecialAddress` what addresses are for (`special_entry`, `is_global`, `is_private`). `Ipv4AddrExt`, `Ipv4CidrExt`,
//! `Ipv6AddrExt` and `Ipv6CidrExt` have IPv4 inside IPv6. The function `text_fault` tells what is wrong with a string
//! that is no network and no address.
//!
//! ```
//! # use cidr::names::*;
//! # use cidr_ext::*;
//! let network = "2001:db8::/48".parse::<Ipv6Cidr>()?;
//! assert_eq!(format!("{:?}", network.subnet(64, 255)), "Some(2001:db8:0:ff::/64)");
//! assert_eq!(format!("{:?}", network.sibling()), "Some(2001:db8:1::/48)");
//! # Ok::<(), Box<dyn std::error::Error>>(())
//! ```
//!
//! No call allocates. What can fail returns `None`, and its contract says exactly where; a string with a mask that does
//! not parse is a `MaskParseError`.
//!
//! # What is proved
//!
//! The libraries are written in Rattle, which is Rust with contracts. There each function is proved to return what its
//! contract says, without a panic, for all arguments that meet its condition. The proofs are of that text. The text in Rust is
//! the same without its contracts: a script compares both token by token and lists each one that differs. That rustc, `core` and
//! `proved-cidr-support` do what the compiler and the library of Rattle do is tested, and not proved.
//!
//! A condition on the caller, such as an index below the length, is an assertion in Rust: a call that breaks it panics. Few
//! conditions are not tested, since that would take longer than the call: that the keys behind a `Probe` ascend, and that a
//! trait which a program implements itself keeps its promises. Then the answer is some answer.
//!
//! The licence is MIT.
//! The names and the behaviour come from the crate `cidr` by Stefan Bühler, whose licence is `LICENSE-cidr`.
#![no_std]
#![forbid(unsafe_code)]
#![allow(unused_imports, unused_variables, dead_code, unstable_name_collisions)]
#![allow(clippy::style, clippy::complexity, clippy::perf)]
#![allow(clippy::manual_unwrap_or_default, clippy::non_canonical_partial_ord_impl)]

mod address;
mod either_family;
mod families;
mod group_faults;
mod inside_ipv6;
mod mask_text;
mod network;
mod numbered;
mod registry;
mod reverse;
mod shifts;
mod special;
mod subnets;
mod text_faults;

pub use address::AddressExt;
pub use either_family::IpCidrExt;
pub use inside_ipv6::{Ipv4AddrExt, Ipv4CidrExt, Ipv6AddrExt, Ipv6CidrExt};
pub use mask_text::{CidrMaskText, MaskParseError};
pub use network::NetworkExt;
pub use numbered::CidrExt;
pub use registry::{IPV4_ENTRIES, IPV6_ENTRIES, Purpose, SpecialEntry};
pub use reverse::zones::ReverseZones;
pub use reverse::{AddressReverseName, CidrReverseName};
pub use special::SpecialAddress;
pub use subnets::Subnets;
pub use text_faults::{TextFault, text_fault};
