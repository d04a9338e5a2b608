//! Route origin validation (RFC 6811).

use cidr_support::vec::Vec;
use crate::covering::Covering;
use crate::links::{last_covering, links};
use cidr::{FamilyCidr, NetworkBits};
use cidr_lookup::{Keyed, ReadyTable, TableError};
use cidr_table::LpmTable;
use cidr_support::alloc::{AllocError, Global};

/// A validated ROA payload (VRP, RFC 6811, 2): the AS may announce the network, and those in it up to a prefix length.
#[derive(Debug, Clone, Copy, PartialEq, Eq, PartialOrd, Ord)]
pub struct Payload<C: NetworkBits + Copy> {
    /// The network.
    pub network: C,
    /// The greatest prefix length in bits that may be announced. Where it is below that of the network, no route matches.
    pub max_length: u8,
    /// The number of the AS. A payload of AS 0 matches no route (RFC 6483, 4).
    pub origin: u32,
}

/// What the payloads say of a route (RFC 6811, 2). Both `InvalidLength` and `InvalidOrigin` are "Invalid" there.
#[derive(Debug, Clone, Copy, PartialEq, Eq)]
pub enum Validity {
    /// Some payload matches the route.
    Valid,
    /// No payload matches the route, and some of its AS covers it: its prefix is too long.
    InvalidLength,
    /// Some payload covers the route, and none of its AS does.
    InvalidOrigin,
    /// No payload covers the route.
    NotFound,
}

/// Validated ROA payloads of one family, ready for routes.
pub struct Payloads<C: Keyed> {
    payloads: Vec<Payload<C>>,
    /// For each payload, how many there are up to the last before it whose network contains its network, or 0.
    above: Vec<usize>,
    /// For each network of a payload, how many payloads there are up to its last.
    ends: ReadyTable<C, usize>,
}

impl<C: Keyed> Payloads<C> {
    /// The payloads, which may come in any order and repeat: each is kept once. They are kept in the order of their networks,
    /// those of one network in that of their greatest lengths, and then of the AS.
    ///
    /// It sorts the `Vec` in place, O(n log n), some 80 ns a payload of IPv4, and makes its networks ready for look-ups. While
    /// it runs it allocates 48 bytes a payload of IPv4, or 88 of IPv6, and the look-up table, of which 24 or 40 stay.
    ///
    /// The error is that an allocation failed, or that there are more than 2,147,483,647 networks or 1,073,741,823 words of
    /// their look-up table. It is never `Refused`.
    ///
    /// ```
    /// # use cidr::Ipv4Cidr;
    /// # use cidr_routes::{lists::*, *};
    /// # use cidr_sets::access::Action;
    /// # use cidr_support::{alloc::Global, vec::Vec};
    /// let payloads = [("192.0.2.0/24", 24, 64496), ("192.0.0.0/16", 16, 64497)];
    /// let payloads = payloads.map(|(n, max_length, origin)| Payload { network: n.parse::<Ipv4Cidr>().unwrap(), max_length, origin });
    /// let payloads = Vec::from_slice(Global, &payloads)?;
    /// let payloads = Payloads::new(Global, payloads)?;
    /// assert_eq!(payloads.as_slice().len(), 2);
    /// # Ok::<(), Box<dyn std::error::Error>>(())
    /// ```
    ///
    /// # Errors
    ///
    /// `TableError`, which tells what is wrong.
    pub fn new(alloc: Global, payloads: Vec<Payload<C>>) -> Result<Self, TableError> {
        let payloads = ascending(payloads);
        let above = or_no_memory(links(alloc, payloads.as_slice()))?;
        let ends = ready(alloc, or_no_memory(ends_of(alloc, payloads.as_slice()))?)?;
        Ok(Payloads {
            payloads,
            above,
            ends,
        })
    }

    /// The payloads, ascending.
    ///
    /// ```
    /// # use cidr::Ipv4Cidr;
    /// # use cidr_routes::{lists::*, *};
    /// # use cidr_sets::access::Action;
    /// # use cidr_support::{alloc::Global, vec::Vec};
    /// let payloads = [("192.0.2.0/24", 24, 64496), ("192.0.0.0/16", 16, 64497)];
    /// let payloads = payloads.map(|(n, max_length, origin)| Payload { network: n.parse::<Ipv4Cidr>().unwrap(), max_length, origin });
    /// let payloads = Vec::from_slice(Global, &payloads)?;
    /// let payloads = Payloads::new(Global, payloads)?;
    /// assert_eq!(payloads.as_slice().len(), 2);
    /// # Ok::<(), Box<dyn std::error::Error>>(())
    /// ```
    #[inline]
    pub fn as_slice(&self) -> &[Payload<C>] {
        self.payloads.as_slice()
    }

    /// What the payloads say of a route, by its network and the AS that it comes from: `None` where that is not one AS, as
    /// where its path ends in a set of AS.
    ///
    /// It takes one look-up of the route's first address, and then a step for each payload that contains that, from the longest
    /// network on, up to the first that matches. It allocates nothing.
    ///
    /// ```
    /// # use cidr::Ipv4Cidr;
    /// # use cidr_routes::{lists::*, *};
    /// # use cidr_sets::access::Action;
    /// # use cidr_support::{alloc::Global, vec::Vec};
    /// let payloads = [("192.0.2.0/24", 24, 64496), ("192.0.0.0/16", 16, 64497)];
    /// let payloads = payloads.map(|(n, max_length, origin)| Payload { network: n.parse::<Ipv4Cidr>().unwrap(), max_length, origin });
    /// let payloads = Vec::from_slice(Global, &payloads)?;
    /// let payloads = Payloads::new(Global, payloads)?;
    /// assert_eq!(format!("{:?}", payloads.validity(&"192.0.2.0/24".parse()?, Some(64496))), "Valid");
    /// # Ok::<(), Box<dyn std::error::Error>>(())
    /// ```
    pub fn validity(&self, route: &C, origin: Option<u32>) -> Validity {
        let mut seen = Validity::NotFound;
        let mut covering = self.covering(route);
        while let Some(payload) = covering.next() {
            seen = beside(seen, payload, route, origin);
            if is_valid(seen) {
                return seen;
            }
        }
        seen
    }

    /// The payloads that cover a route, from the longest network to the shortest. It takes one look-up of the route's first
    /// address, and then a step for each payload that contains that. It allocates nothing.
    ///
    /// ```
    /// # use cidr::Ipv4Cidr;
    /// # use cidr_routes::{lists::*, *};
    /// # use cidr_sets::access::Action;
    /// # use cidr_support::{alloc::Global, vec::Vec};
    /// let payloads = [("192.0.2.0/24", 24, 64496), ("192.0.0.0/16", 16, 64497)];
    /// let payloads = payloads.map(|(n, max_length, origin)| Payload { network: n.parse::<Ipv4Cidr>().unwrap(), max_length, origin });
    /// let payloads = Vec::from_slice(Global, &payloads)?;
    /// let payloads = Payloads::new(Global, payloads)?;
    /// let mut covering = payloads.covering(&"192.0.2.0/24".parse()?);
    /// assert!(covering.next().is_some());
    /// # Ok::<(), Box<dyn std::error::Error>>(())
    /// ```
    pub fn covering(&self, route: &C) -> Covering<'_, C> {
        let payloads = self.payloads.as_slice();
        let above = self.above.as_slice();
        let upto = self.upto_first_address(route);
        let end = last_covering(payloads, above, route, upto);
        Covering {
            payloads,
            above,
            route: *route,
            end,
        }
    }

    /// How many payloads there are up to the last whose network contains the first address of a route, or 0.
    #[inline]
    fn upto_first_address(&self, route: &C) -> usize {
        let address = <C as FamilyCidr>::new_host(route.first_address());
        match self.ends.lookup(&address) {
            Some(row) => row.1,
            None => 0,
        }
    }
}

/// What is said by some payloads and one more, which covers the route.
fn beside<C: FamilyCidr>(
    seen: Validity,
    payload: &Payload<C>,
    route: &C,
    origin: Option<u32>,
) -> Validity {
    if !is_of_origin(payload.origin, origin) {
        return match seen {
            Validity::NotFound => Validity::InvalidOrigin,
            _ => seen,
        };
    }
    if route.network_length() <= payload.max_length {
        return Validity::Valid;
    }
    match seen {
        Validity::Valid => Validity::Valid,
        _ => Validity::InvalidLength,
    }
}

/// Whether some payload matched.
#[inline]
fn is_valid(seen: Validity) -> bool {
    matches!(seen, Validity::Valid)
}

/// Whether a payload of one AS is for the AS of a route.
#[inline]
fn is_of_origin(payload_origin: u32, origin: Option<u32>) -> bool {
    match origin {
        Some(origin) => origin == payload_origin && origin != 0,
        None => false,
    }
}

/// The values, ascending, each once.
#[inline]
fn ascending<T: Ord + Copy>(mut values: Vec<T>) -> Vec<T> {
    values.sort_unstable();
    values.dedup();
    values
}

/// For each network how many payloads there are up to its last, where those of one network stand together.
#[inline]
fn ends_of<C: NetworkBits + Copy>(
    alloc: Global,
    payloads: &[Payload<C>],
) -> Result<LpmTable<C, usize>, AllocError> {
    let mut rows = Vec::with_capacity(alloc, payloads.len())?;
    for (i, payload) in payloads.iter().enumerate() {
        rows.push((payload.network, i + 1))?;
    }
    Ok(LpmTable::from_rows(rows))
}

/// The table, made ready.
#[inline]
fn ready<C: Keyed>(
    alloc: Global,
    table: LpmTable<C, usize>,
) -> Result<ReadyTable<C, usize>, TableError> {
    match ReadyTable::new(alloc, table) {
        Ok(ready) => Ok(ready),
        Err((_, error)) => Err(error),
    }
}

/// What was made, or that an allocation failed.
#[inline]
fn or_no_memory<T>(made: Result<T, AllocError>) -> Result<T, TableError> {
    match made {
        Ok(value) => Ok(value),
        Err(_) => Err(TableError::NoMemory),
    }
}
