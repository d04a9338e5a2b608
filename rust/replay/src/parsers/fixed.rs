//! Values that closures give, by their texts.

use std::str::FromStr;

/// A value of each type, by its text in IPv4 and its text in IPv6.
#[derive(Clone, Copy)]
pub struct Fixed {
    pub ipv4: &'static str,
    pub ipv6: &'static str,
}

impl Fixed {
    /// The value of the type, the IPv4 one where the type has both.
    pub fn value<V: FromStr>(self) -> Result<V, V::Err> {
        match self.ipv4.parse::<V>() {
            Ok(value) => Ok(value),
            Err(_) => self.ipv6.parse::<V>(),
        }
    }
}

/// Whether the type has values of IPv4.
pub fn has_ipv4<V: Copy + FromStr>() -> bool {
    "0.0.0.0".parse::<V>().is_ok()
}
