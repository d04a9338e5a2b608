//! Compact bytes: a tag, which tells the family and the prefix length, and the octets of the address.

mod either_family;
mod front;
pub(crate) mod octets;
mod one_family;
