//! The error of an address string: that of `core::net`, which is made only by parsing what is no address.

pub use core::net::AddrParseError;

use core::net::{IpAddr, Ipv4Addr, Ipv6Addr};
use core::str::FromStr;

#[cfg(feature = "std")]
extern crate std;

/// The error that std returns for a string that is no address: it is longer than any of IPv4, which is looked at first.
#[cold]
#[inline]
fn refused<A: FromStr<Err = AddrParseError>>() -> AddrParseError {
    match "no address by its length".parse::<A>() {
        Err(e) => e,
        Ok(_) => unreachable!(),
    }
}

macro_rules! errors {
    ($($name:ident: $address:ty),*) => {
        $(
            /// The error of this address, which is kept where the feature `std` is there.
            #[inline]
            pub(crate) fn $name() -> AddrParseError {
                #[cfg(feature = "std")]
                {
                    static MADE: std::sync::OnceLock<AddrParseError> = std::sync::OnceLock::new();
                    MADE.get_or_init(refused::<$address>).clone()
                }
                #[cfg(not(feature = "std"))]
                refused::<$address>()
            }
        )*
    };
}

errors!(ipv4: Ipv4Addr, ipv6: Ipv6Addr, ip: IpAddr);
