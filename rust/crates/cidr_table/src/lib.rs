//! A longest-prefix table, proved: networks with a value each, and the longest of them that an address is in.
//!
//! The keys are networks of one type of `cidr` that implements `NetworkBits`: `Ipv4Cidr`, `Ipv6Cidr` or `AnyIpCidr`.
//! The table is a map from them to values, kept in the order of the keys. A key with its value is a row, and a row has
//! an index, from 0 on in that order.
//!
//! `IpCidr` is no key, as networks of both families would have the same bits: `AnyIpCidr::from` makes of one, or of an
//! address, a key of a table of both, here one with 10.0.0.0/8:
//!
//! ```text
//! let network = "10.1.0.0/16".parse::<IpCidr>()?;
//! assert_eq!(format!("{:?}", routes.lookup(&AnyIpCidr::from(network))), "Some((V4(10.0.0.0/8), 1))");
//! ```
//!
//! A table is filled by `set`, or by `insert`:
//!
//! ```
//! # use cidr::{errors::*, *};
//! # use cidr_table::{alloc::*, *};
//! # type Routes = LpmTable<Ipv4Cidr, Ipv4Addr>;
//! # fn next_hop(routes: &Routes, address: Ipv4Addr) -> Option<Ipv4Addr> {
//! #     let index = longest_match(&mut routes.probe(), &Ipv4Cidr::new_host(address))?;
//! #     let (_network, next_hop) = routes.row(index)?;
//! #     Some(*next_hop)
//! # }
//! let mut routes = Routes::new(Global);
//! routes.set("0.0.0.0/0".parse()?, Ipv4Addr::new(192, 0, 2, 1))?;
//! routes.set("10.0.0.0/8".parse()?, Ipv4Addr::new(192, 0, 2, 2))?;
//! assert_eq!(format!("{:?}", next_hop(&routes, Ipv4Addr::new(10, 1, 2, 3))), "Some(192.0.2.2)");
//! assert_eq!(format!("{:?}", next_hop(&routes, Ipv4Addr::new(198, 51, 100, 1))), "Some(192.0.2.1)");
//! # Ok::<(), Box<dyn std::error::Error>>(())
//! ```
//!
//! `Routes` is `LpmTable<Ipv4Cidr, Ipv4Addr>`, and `next_hop` looks an address up by the network of that address alone:
//!
//! ```
//! # use cidr::{errors::*, *};
//! # use cidr_table::{alloc::*, *};
//! # type Routes = LpmTable<Ipv4Cidr, Ipv4Addr>;
//! fn next_hop(routes: &Routes, address: Ipv4Addr) -> Option<Ipv4Addr> {
//!     let index = longest_match(&mut routes.probe(), &Ipv4Cidr::new_host(address))?;
//!     let (_network, next_hop) = routes.row(index)?;
//!     Some(*next_hop)
//! }
//! # Ok::<(), Box<dyn std::error::Error>>(())
//! ```
//!
//! `insert` returns the value that the key had before, and `get` and `remove` what the key has:
//!
//! ```
//! # use cidr::{errors::*, *};
//! # use cidr_table::{alloc::*, *};
//! # type Routes = LpmTable<Ipv4Cidr, Ipv4Addr>;
//! # fn next_hop(routes: &Routes, address: Ipv4Addr) -> Option<Ipv4Addr> {
//! #     let index = longest_match(&mut routes.probe(), &Ipv4Cidr::new_host(address))?;
//! #     let (_network, next_hop) = routes.row(index)?;
//! #     Some(*next_hop)
//! # }
//! let rows = [("0.0.0.0/0", Ipv4Addr::new(192, 0, 2, 1)), ("10.0.0.0/8", Ipv4Addr::new(192, 0, 2, 2))];
//! let mut routes: Routes = rows.map(|(network, hop)| (network.parse().unwrap(), hop)).into_iter().collect();
//! assert_eq!(format!("{:?}", routes.insert("10.0.0.0/8".parse()?, Ipv4Addr::new(192, 0, 2, 3))), "Ok(Some(192.0.2.2))");
//! assert_eq!(format!("{:?}", routes.get(&"10.0.0.0/8".parse()?)), "Some(192.0.2.3)");
//! assert_eq!(format!("{:?}", routes.remove(&"0.0.0.0/0".parse()?)), "Some(192.0.2.1)");
//! # Ok::<(), Box<dyn std::error::Error>>(())
//! ```
//!
//! `insert` and `set` of a new key without room, `with_capacity`, `reserve`, `clone`, `load` and, of rows that don't
//! ascend, `from_rows` allocate, and no other call does. Where an allocation fails, `insert` returns the key and the
//! value as its error and leaves the rows as they were, `load` returns `NoMemory`, and `from_rows` does without.
//! `insert` and `remove` move the rows behind the key, O(n); `from_rows` and `load` sort many rows once.
//!
//! `load` takes prefix bytes, one network after the other, and keeps the index of each as its value. `inside` has the
//! rows whose key is in a network, and `least_cover` the shortest list of networks with the addresses of all keys:
//!
//! ```
//! # use cidr::{errors::*, *};
//! # use cidr_table::{alloc::*, *};
//! # type Routes = LpmTable<Ipv4Cidr, Ipv4Addr>;
//! # fn next_hop(routes: &Routes, address: Ipv4Addr) -> Option<Ipv4Addr> {
//! #     let index = longest_match(&mut routes.probe(), &Ipv4Cidr::new_host(address))?;
//! #     let (_network, next_hop) = routes.row(index)?;
//! #     Some(*next_hop)
//! # }
//! let bytes = [9, 10, 0, 9, 10, 128, 24, 192, 0, 2];
//! let table = LpmTable::<Ipv4Cidr, usize>::load(Global, &bytes)?;
//! # Ok::<(), Box<dyn std::error::Error>>(())
//! ```
//!
//! ```text
//! assert_eq!(format!("{:?}", table.inside(&"10.0.0.0/8".parse()?)), "[(10.0.0.0/9, 0), (10.128.0.0/9, 1)]");
//!
//! let mut networks = ["0.0.0.0/0".parse::<Ipv4Cidr>()?; 3];
//! if table.len() <= networks.len() {
//!     let count = table.least_cover(&mut networks);
//!     assert_eq!(format!("{:?}", &networks[..count]), "[10.0.0.0/8, 192.0.2.0/24]");
//! }
//! ```
//!
//! Bytes that are no table give the index of the first network that is rejected, and why:
//!
//! ```
//! # use cidr::{errors::*, *};
//! # use cidr_table::{alloc::*, *};
//! # type Routes = LpmTable<Ipv4Cidr, Ipv4Addr>;
//! # fn next_hop(routes: &Routes, address: Ipv4Addr) -> Option<Ipv4Addr> {
//! #     let index = longest_match(&mut routes.probe(), &Ipv4Cidr::new_host(address))?;
//! #     let (_network, next_hop) = routes.row(index)?;
//! #     Some(*next_hop)
//! # }
//! match LpmTable::<Ipv4Cidr, usize>::load(Global, &[8, 10, 40]) {
//!     Ok(table) => println!("{} rows", table.len()),
//!     Err(error) => println!("{error}"),
//! }
//! # Ok::<(), Box<dyn std::error::Error>>(())
//! ```
//!
//! which prints
//!
//! ```text
//! prefix 1: prefix length is too long
//! ```
//!
//! `lookup` returns the row of the longest key that begins the bits of an address or a network, and `matches` all rows
//! whose key does, the shortest key first. Who looks up many addresses in rows that stay as they are makes a table of
//! one family ready once, by the `ReadyTable` of `cidr_lookup`.
//!
//! `get_mut`, `lookup_mut` and `value_mut` return a reference to a value, for writing in its row, and `for_each_mut`
//! calls a closure with each: no key changes, and nothing is allocated.
//!
//! `longest_match` is a function over any `Probe`, which counts the comparisons with keys by a `Count`. With n the number
//! of rows and d that of the binary digits of n, it makes at most `(len + 1) * d` of them, where `len` is the number of
//! bits that are looked up.
//!
//! # What is proved
//!
//! The libraries are written in Rattle, which is Rust with contracts. There each function is proved to return what its
//! contract says, without a panic, for all arguments that meet its condition. The proofs are of that text. The text in Rust is
//! the same without its contracts: a script compares both token by token and lists each one that differs. That rustc, `core` and
//! `proved-cidr-support` do what the compiler and the library of Rattle do is tested, and not proved.
//!
//! A condition on the caller, such as an index below the length, is an assertion in Rust: a call that breaks it panics. Few
//! conditions are not tested, since that would take longer than the call: that the keys behind a `Probe` ascend, and that a
//! trait which a program implements itself keeps its promises. Then the answer is some answer.
//!
//! The licence is MIT.
//! The names and the behaviour come from the crate `cidr` by Stefan Bühler, whose licence is `LICENSE-cidr`.
#![no_std]
#![forbid(unsafe_code)]
#![allow(unused_imports, unused_variables, dead_code, unstable_name_collisions)]
#![allow(clippy::style, clippy::complexity, clippy::perf)]
#![allow(clippy::manual_unwrap_or_default, clippy::non_canonical_partial_ord_impl)]

pub mod alloc;

mod count;
mod lookup;
mod probe;
mod rows;
mod search;
mod sorting;
mod table;

pub use count::Count;
pub use lookup::longest_match;
pub use probe::Probe;
pub use rows::Rows;
pub use search::is_inside;
pub use table::LpmTable;
pub use table::cover::least_cover_in_place;
pub use table::iterators::{IntoIter, Keys, Values};
pub use table::load::LoadError;
pub use table::matches::Matches;
