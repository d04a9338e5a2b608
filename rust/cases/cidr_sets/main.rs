//! Sets of addresses: in memory that the caller brings, and rules with those that cover them. The expected values come
//! from Python's `ipaddress`.

mod shadows;
mod slices;
