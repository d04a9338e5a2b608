//! The traits of the crate `serde`, with its signatures, as far as the feature `serde` of the crates here and its tests need them:
//! `rust/check` has no network. No program should use this.
#![no_std]

pub mod de;
pub mod ser;

pub use de::{Deserialize, Deserializer};
pub use ser::{Serialize, Serializer};
