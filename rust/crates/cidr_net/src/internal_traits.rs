//! Traits that no other crate can name.

pub(crate) mod address_bits;
pub(crate) mod sealed;
pub(crate) mod single_bits;
