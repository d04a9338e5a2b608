//! What the crate's feature `bitstring` has: the trait of the crate `bitstring`, by the calls of the trait of this crate.

use crate::bits::BitString;
use crate::{AnyIpCidr, Ipv4Cidr, Ipv4Inet, Ipv6Cidr, Ipv6Inet};

macro_rules! forms {
    ($($name:ident),*) => {
        $(
            impl bitstring::BitString for $name {
                fn get(&self, place: usize) -> bool {
                    BitString::get(self, place)
                }

                fn set(&mut self, place: usize, bit: bool) {
                    BitString::set(self, place, bit);
                }

                fn flip(&mut self, place: usize) {
                    BitString::flip(self, place);
                }

                fn len(&self) -> usize {
                    BitString::len(self)
                }

                fn clip(&mut self, len: usize) {
                    BitString::clip(self, len);
                }

                fn append(&mut self, bit: bool) {
                    BitString::append(self, bit);
                }

                fn null() -> Self {
                    <$name as BitString>::null()
                }

                fn shared_prefix_len(&self, other: &Self) -> usize {
                    BitString::shared_prefix_len(self, other)
                }
            }
        )*
    };
}

forms!(Ipv4Cidr, Ipv6Cidr, AnyIpCidr, Ipv4Inet, Ipv6Inet);
