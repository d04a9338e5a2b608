//! What the feature `serde` has, as the crate `cidr` has it: networks and hosts as strings in formats that people read, and as
//! compact bytes in others: a newtype of a pair, the tag and the octets, which are none for `any`.

use crate::{AnyIpCidr, IpCidr, IpInet, Ipv4Cidr, Ipv4Inet, Ipv6Cidr, Ipv6Inet};
use core::fmt;
use core::marker::PhantomData;
use core::str::FromStr;
use serde::de::{self, Deserialize, Deserializer, SeqAccess, Visitor};
use serde::ser::{Serialize, SerializeTuple, Serializer};

/// Bytes that `to_compact` has written.
struct Compact<'a>(&'a [u8]);

impl Serialize for Compact<'_> {
    fn serialize<S: Serializer>(&self, serializer: S) -> Result<S::Ok, S::Error> {
        let mut pair = serializer.serialize_tuple(2)?;
        pair.serialize_element(&self.0[0])?;
        match self.0[1..] {
            [] => pair.serialize_element(&())?,
            ref octets if octets.len() == 4 => pair.serialize_element(&array::<4>(octets))?,
            ref octets => pair.serialize_element(&array::<16>(octets))?,
        }
        pair.end()
    }
}

/// The bytes as an array of their number.
fn array<const N: usize>(bytes: &[u8]) -> [u8; N] {
    let mut made = [0; N];
    made.copy_from_slice(bytes);
    made
}

/// Reads a value by `from_compact`.
struct FromCompact<T>(PhantomData<T>, fn(&[u8]) -> Option<T>);

impl<'de, T> Visitor<'de> for FromCompact<T> {
    type Value = T;

    fn expecting(&self, f: &mut fmt::Formatter<'_>) -> fmt::Result {
        f.write_str("a pair of a tag and octets")
    }

    fn visit_newtype_struct<D: Deserializer<'de>>(self, deserializer: D) -> Result<T, D::Error> {
        deserializer.deserialize_tuple(2, self)
    }

    fn visit_seq<A: SeqAccess<'de>>(self, mut pair: A) -> Result<T, A::Error> {
        let missing = |at| de::Error::invalid_length(at, &"a pair of a tag and octets");
        let tag: u8 = pair.next_element()?.ok_or_else(|| missing(0))?;
        let mut bytes = [tag; 17];
        let len = match tag {
            0..=32 => {
                let octets: [u8; 4] = pair.next_element()?.ok_or_else(|| missing(1))?;
                bytes[1..5].copy_from_slice(&octets);
                5
            }
            64..=192 => {
                let octets: [u8; 16] = pair.next_element()?.ok_or_else(|| missing(1))?;
                bytes[1..].copy_from_slice(&octets);
                17
            }
            255 => pair.next_element::<()>()?.map(|()| 1).ok_or_else(|| missing(1))?,
            _ => return Err(de::Error::custom("tag out of range")),
        };
        (self.1)(&bytes[..len]).ok_or_else(|| de::Error::custom("no such network or host"))
    }
}

/// Reads a value by `from_str`.
struct FromText<T>(PhantomData<T>);

impl<T: FromStr<Err = crate::errors::NetworkParseError>> Visitor<'_> for FromText<T> {
    type Value = T;

    fn expecting(&self, f: &mut fmt::Formatter<'_>) -> fmt::Result {
        f.write_str("a network or a host as a string")
    }

    fn visit_str<E: de::Error>(self, text: &str) -> Result<T, E> {
        text.parse().map_err(E::custom)
    }
}

macro_rules! forms {
    ($($name:ident),*) => {
        $(
            impl Serialize for $name {
                fn serialize<S: Serializer>(&self, serializer: S) -> Result<S::Ok, S::Error> {
                    if serializer.is_human_readable() {
                        serializer.serialize_str(self.to_text().as_str())
                    } else {
                        serializer.serialize_newtype_struct(stringify!($name), &Compact(&self.to_compact()))
                    }
                }
            }

            impl<'de> Deserialize<'de> for $name {
                fn deserialize<D: Deserializer<'de>>(deserializer: D) -> Result<Self, D::Error> {
                    if deserializer.is_human_readable() {
                        deserializer.deserialize_str(FromText(PhantomData))
                    } else {
                        let read = |bytes: &[u8]| $name::from_compact(bytes).ok().map(|(value, _)| value);
                        deserializer.deserialize_newtype_struct(stringify!($name), FromCompact(PhantomData, read))
                    }
                }
            }
        )*
    };
}

forms!(Ipv4Cidr, Ipv6Cidr, IpCidr, AnyIpCidr, Ipv4Inet, Ipv6Inet, IpInet);
