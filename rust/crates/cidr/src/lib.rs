//! IPv4 and IPv6 addresses and networks, proved.
//!
//! A network is a `Cidr`, such as 192.0.2.48/28: all addresses that begin with the same bits, the prefix. A host is an
//! `Inet`, such as 192.0.2.50/28: an address in its network. The names are those of PostgreSQL and of the Rust crate
//! `cidr`. Each call is panic-free, terminating and does not allocate, and its contract says which value it returns.
//!
//! | | IPv4 | IPv6 | either family |
//! |---|---|---|---|
//! | address | `Ipv4Addr` | `Ipv6Addr` | `IpAddr` |
//! | network | `Ipv4Cidr` | `Ipv6Cidr` | `IpCidr`, and `AnyIpCidr` with `any` |
//! | host | `Ipv4Inet` | `Ipv6Inet` | `IpInet` |
//! | pair of hosts of one network | `Ipv4InetPair` | `Ipv6InetPair` | `IpInetPair` |
//! | walk over hosts, over addresses | `InetIterator<Ipv4Addr>`, `InetAddressIterator<..>` | the same | the same |
//!
//! `Address`, `Cidr`, `Inet` and `InetPair` are traits for code that is written once over all families. `errors` has
//! the errors, `parsers` parses strings in other forms than the types themselves do, `canon` compares networks in five
//! ways at once.
//!
//! Conditions on the caller, as that of `+`, are asserted: a call that breaks one panics.
//!
//! # Addresses and networks
//!
//! ```
//! # use cidr::{canon::*, errors::*, parsers::*, *};
//! assert_eq!(format!("{}", "2001:DB8:0:0:0:0:0:1".parse::<Ipv6Addr>()?), "2001:db8::1");
//! assert_eq!(Ipv4Addr::new(192, 0, 2, 1).to_bits(), 0xc0000201);
//! assert_eq!(format!("{:?}", "192.0.2.01".parse::<Ipv4Addr>()), "Err(invalid IPv4 address syntax)");
//! # Ok::<(), Box<dyn std::error::Error>>(())
//! ```
//!
//! ```
//! # use cidr::{canon::*, errors::*, parsers::*, *};
//! let network = "192.0.2.48/28".parse::<Ipv4Cidr>()?;
//! assert_eq!(format!("{}", network.first_address()), "192.0.2.48");
//! assert_eq!(format!("{}", network.last_address()), "192.0.2.63");
//! assert_eq!(format!("{}", network.mask()), "255.255.255.240");
//!
//! let address = Ipv4Addr::new(192, 0, 2, 50);
//! assert!(network.contains(&address));
//! assert_eq!(format!("{:?}", Ipv4Cidr::new(address, 28)), "Err(host part of address was not zero)");
//! # Ok::<(), Box<dyn std::error::Error>>(())
//! ```
//!
//! ```
//! # use cidr::{canon::*, errors::*, parsers::*, *};
//! let network = "2001:db8::/32".parse::<Ipv6Cidr>()?;
//! let inner = "2001:db8:1::/48".parse::<Ipv6Cidr>()?;
//! assert!(network.contains_cidr(&inner));
//! # Ok::<(), Box<dyn std::error::Error>>(())
//! ```
//!
//! # Hosts
//!
//! ```
//! # use cidr::{canon::*, errors::*, parsers::*, *};
//! let host = "192.0.2.62/28".parse::<Ipv4Inet>()?;
//! assert_eq!(format!("{}", host.address()), "192.0.2.62");
//! assert_eq!(format!("{:?}", host.next()), "Some(192.0.2.63/28)");
//! assert_eq!(format!("{:?}", host.overflowing_add(2)), "(192.0.2.48/28, true)");
//!
//! let host = "2001:db8::ffff/112".parse::<Ipv6Inet>()?;
//! assert_eq!(format!("{}", host.network()), "2001:db8::/112");
//! assert_eq!(format!("{:?}", host.next()), "None");
//! # Ok::<(), Box<dyn std::error::Error>>(())
//! ```
//!
//! A step stays in the host's network: `true` tells that it wrapped past the end. `+` and `-` are for steps that the
//! caller knows to stay in the network.
//!
//! # Pairs and walks
//!
//! ```
//! # use cidr::{canon::*, errors::*, parsers::*, *};
//! let first = "192.0.2.49/28".parse::<Ipv4Inet>()?;
//! let second = "192.0.2.51/28".parse::<Ipv4Inet>()?;
//! let pair = Ipv4InetPair::new(first, second)?;
//! assert_eq!(format!("{}", pair), "(192.0.2.49/28, 192.0.2.51/28)");
//!
//! let mut walk = pair.iter().addresses();
//! assert_eq!(format!("{:?}", walk.next()), "Some(192.0.2.49)");
//! assert_eq!(format!("{:?}", walk.next_back()), "Some(192.0.2.51)");
//! assert_eq!(format!("{:?}", walk.next()), "Some(192.0.2.50)");
//! assert_eq!(format!("{:?}", walk.next()), "None");
//! # Ok::<(), Box<dyn std::error::Error>>(())
//! ```
//!
//! ```
//! # use cidr::{canon::*, errors::*, parsers::*, *};
//! let first = Ipv6Addr::new(0x2001, 0xdb8, 0, 0, 0, 0, 0, 1);
//! let last = Ipv6Addr::new(0x2001, 0xdb8, 0, 0, 0, 0, 0, 0xff);
//! let pair = Ipv6InetPair::new_from_addresses(first, last, 64)?;
//! assert_eq!(format!("{}", pair.network()), "2001:db8::/64");
//! assert_eq!(format!("{:?}", pair.iter().count()), "Some(255)");
//! # Ok::<(), Box<dyn std::error::Error>>(())
//! ```
//!
//! # Either family
//!
//! No network contains an address of the other family, so ::ffff:0.0.0.0/96 contains no IPv4 address.
//!
//! ```
//! # use cidr::{canon::*, errors::*, parsers::*, *};
//! let network = "::ffff:0.0.0.0/96".parse::<IpCidr>()?;
//! let address = "192.0.2.1".parse::<IpAddr>()?;
//! assert_eq!(format!("{}", network), "::ffff:0.0.0.0/96");
//! assert!(network.is_ipv6());
//! assert!(!network.contains(&address));
//! assert!("any".parse::<AnyIpCidr>()?.contains(&address));
//! # Ok::<(), Box<dyn std::error::Error>>(())
//! ```
//!
//! ```
//! # use cidr::{canon::*, errors::*, parsers::*, *};
//! let first = "2001:db8::1/64".parse::<IpInet>()?;
//! assert_eq!(format!("{}", first.network()), "2001:db8::/64");
//! assert_eq!(format!("{:?}", first.family()), "Ipv6");
//! let pair = IpInetPair::new(first, "2001:db8::ff/64".parse()?)?;
//! assert_eq!(format!("{:?}", pair.iter().count()), "Some(255)");
//! assert_eq!(format!("{:?}", IpInetPair::new(first, "192.0.2.1/24".parse()?)), "Err(addresses not in shared network)");
//! # Ok::<(), Box<dyn std::error::Error>>(())
//! ```
//!
//! # Parsers
//!
//! The types parse strictly. `parsers` has IPv4 as POSIX `inet_addr` parses it, networks by their first octets alone,
//! and parsers around a function of your own for the address, here one that takes `home` for 127.0.0.1:
//!
//! ```
//! # use cidr::{canon::*, errors::*, parsers::*, *};
//! assert_eq!(format!("{:?}", inet_addr("127.1")), "Some(127.0.0.1)");
//! assert_eq!(format!("{:?}", parse_loose_ip("0x7f000001")), "Ok(127.0.0.1)");
//! assert_eq!(format!("{:?}", parse_short_ipv4_address_as_cidr("192.168")), "Ok(192.168.0.0/16)");
//! # Ok::<(), Box<dyn std::error::Error>>(())
//! ```
//!
//! ```text
//! assert_eq!(format!("{:?}", parse_cidr::<Ipv4Cidr, _>("home", address)), "Ok(127.0.0.1/32)");
//! assert_eq!(format!("{:?}", parse_cidr::<Ipv4Cidr, _>("home/8", address)), "Err(host part of address was not zero)");
//! assert_eq!(format!("{:?}", parse_cidr_ignore_hostbits::<Ipv4Cidr, _>("home/8", address)), "Ok(127.0.0.0/8)");
//! ```
//!
//! # Strings of bits
//!
//! A network is the string of the bits that its addresses begin with, and a host that of its network: `BitString`.
//! `NetworkBits` adds that networks are ordered by these bits, which is what a table of networks goes by. Of
//! `AnyIpCidr` the first bit is the family.
//!
//! ```
//! # use cidr::{canon::*, errors::*, parsers::*, *};
//! let other = "192.168.0.0/24".parse::<Ipv4Cidr>()?;
//! let mut network = "192.160.0.0/11".parse::<Ipv4Cidr>()?;
//! assert_eq!(network.shared_prefix_len(&other), 11);
//! network.clip(2);
//! assert_eq!(format!("{}", network), "192.0.0.0/2");
//! network.append(true);
//! assert_eq!(format!("{}", network), "224.0.0.0/3");
//! # Ok::<(), Box<dyn std::error::Error>>(())
//! ```
//!
//! # Bytes
//!
//! Compact bytes are a tag and the octets of the first address: the prefix length in IPv4, and 64 more than that in
//! IPv6; 255 is `any`. No value's bytes begin with those of another value of its type, and bytes after them are left
//! alone.
//!
//! ```
//! # use cidr::{canon::*, errors::*, parsers::*, *};
//! let network = "192.0.2.0/24".parse::<Ipv4Cidr>()?;
//! assert_eq!(format!("{:?}", network.to_compact()), "[24, 192, 0, 2, 0]");
//! assert_eq!(format!("{:?}", Ipv4Cidr::from_compact(&[8, 10, 0, 0, 0, 99])), "Ok((10.0.0.0/8, 5))");
//! assert_eq!(format!("{:?}", AnyIpCidr::from_compact(&[0xff])), "Ok((Any, 1))");
//! assert_eq!(format!("{:?}", Ipv4Cidr::from_compact(&[24, 192, 0])), "Err(compact bytes end too early)");
//! # Ok::<(), Box<dyn std::error::Error>>(())
//! ```
//!
//! `PrefixBytes` writes networks of one family as BGP-4 does (RFC 4271, 4.3): the prefix length and then no more octets
//! than hold the prefix. Bits after the prefix are ignored.
//!
//! ```
//! # use cidr::{canon::*, errors::*, parsers::*, *};
//! let network = "192.0.2.128/25".parse::<Ipv4Cidr>()?;
//! assert_eq!(format!("{:?}", network.to_prefix_bytes()), "[25, 192, 0, 2, 128]");
//! assert_eq!(format!("{:?}", Ipv4Cidr::from_prefix_bytes(&[9, 10, 255, 8])), "Ok((10.128.0.0/9, 3))");
//! assert_eq!(format!("{:?}", Ipv4Cidr::from_prefix_bytes(&[33])), "Err(prefix length is too long)");
//! assert_eq!(format!("{:?}", Ipv6Cidr::from_prefix_bytes(&[128, 0])), "Err(prefix bytes end too early)");
//! # Ok::<(), Box<dyn std::error::Error>>(())
//! ```
//!
//! # The order of errors
//!
//! Parsing a network returns the first of these errors:
//!
//! 1. `AddrParseError`: what stands before the last slash, or the whole string without one, is no address.
//! 2. `NetworkLengthParseError`: what stands after it is no prefix length: an optional `+` and decimal digits of
//!    a value up to 255.
//! 3. `NetworkLengthTooLongError`: the prefix length is above 32 or 128.
//! 4. `InvalidHostPart`: a bit after the prefix is set. A host is never rejected for this.
//!
//! A string without a slash is a network or a host of full prefix length. Where a string may be of either family, the
//! first error is that of the family that has the address, and `AddrParseError` where neither has it. `new` of a
//! network returns the errors 3 and 4, in this order, and `new` of a host error 3. A pair from addresses is rejected
//! for two families, then for error 3, then where the prefixes differ; a pair of hosts for two families, two prefix
//! lengths or two networks.
//!
//! Compact bytes: no byte (`Truncated`), `InvalidTag`, too few octets (`Truncated`), `InvalidAny`, `InvalidFamily`,
//! and of networks `InvalidHostPart`. Prefix bytes: no byte (`Truncated`), `LengthTooLong`, too few octets
//! (`Truncated`).
//!
//! # Conditions on the caller
//!
//! Few calls have one: `+` and `-` on hosts, whose step has to stay in the network; `drive`, whose two slices have to
//! be of one length; `get`, `set` and `flip` of a bit, whose index has to be below the length; `append`, which needs
//! room; and the parsers, whose function for the address has to be callable for every string.
//!
//! # What is proved
//!
//! The libraries are written in Rattle, which is Rust with contracts. There each function is proved to return what its
//! contract says, without a panic, for all arguments that meet its condition. The proofs are of that text. The text in Rust is
//! the same without its contracts: a script compares both token by token and lists each one that differs. That rustc, `core` and
//! `proved-cidr-support` do what the compiler and the library of Rattle do is tested, and not proved.
//!
//! A condition on the caller, such as an index below the length, is an assertion in Rust: a call that breaks it panics. Few
//! conditions are not tested, since that would take longer than the call: that the keys behind a `Probe` ascend, and that a
//! trait which a program implements itself keeps its promises. Then the answer is some answer.
//!
//! The licence is MIT.
//! The names and the behaviour come from the crate `cidr` by Stefan Bühler, whose licence is `LICENSE-cidr`.
#![no_std]
#![forbid(unsafe_code)]
#![allow(unused_imports, unused_variables, dead_code, unstable_name_collisions)]
#![allow(clippy::style, clippy::complexity, clippy::perf)]
#![allow(clippy::manual_unwrap_or_default, clippy::non_canonical_partial_ord_impl)]
#![allow(clippy::incompatible_msrv)]

#[cfg(feature = "serde")]
mod serde_forms;

mod addr;
mod arithmetic;
mod bits;
pub mod canon;
mod cidr;
mod compact;
pub mod errors;
mod family;
mod inet;
mod inet_iterator;
mod inet_pair;
mod internal_traits;
mod num;
pub mod parsers;
mod prefix_bytes;
mod text;
mod traits;

pub use addr::error::AddrParseError;
pub use addr::ip::IpAddr;
pub use addr::v4::Ipv4Addr;
pub use addr::v6::Ipv6Addr;
pub use bits::{BitString, NetworkBits};
pub use cidr::any::AnyIpCidr;
pub use cidr::combined::IpCidr;
pub use cidr::network::{Ipv4Cidr, Ipv6Cidr, Network};
pub use family::Family;
pub use inet::combined::IpInet;
pub use inet::host::{Ipv4Inet, Ipv6Inet, Host};
pub use inet_iterator::driving::{End, drive};
pub use inet_iterator::{InetAddressIterator, InetIterator};
pub use inet_pair::combined::IpInetPair;
pub use inet_pair::host_pair::{Ipv4InetPair, Ipv6InetPair, HostPair};
pub use prefix_bytes::PrefixBytes;
pub use text::with_length::WithLength;
pub use traits::family_cidr::FamilyCidr;
pub use traits::{Address, Cidr, Inet, InetPair};
