//! The feature `serde`, by two small formats: one that people read, which has strings alone, and one of bytes, which has the newtype
//! of a pair. It compiles with the crate `serde` as with `stubs/serde`.
#![cfg(feature = "serde")]

use cidr::{AnyIpCidr, IpCidr, IpInet, Ipv4Cidr, Ipv4Inet, Ipv6Cidr, Ipv6Inet};
use serde::de::{self, DeserializeSeed, Deserializer, SeqAccess, Visitor};
use serde::ser::{self, Impossible, SerializeTuple, Serializer};
use serde::{Deserialize, Serialize};
use std::fmt;

/// Why a value is not read.
#[derive(Debug, PartialEq)]
struct Refused(String);

impl fmt::Display for Refused {
    fn fmt(&self, f: &mut fmt::Formatter<'_>) -> fmt::Result {
        f.write_str(&self.0)
    }
}

impl std::error::Error for Refused {}

impl ser::Error for Refused {
    fn custom<T: fmt::Display>(msg: T) -> Refused {
        Refused(msg.to_string())
    }
}

impl de::Error for Refused {
    fn custom<T: fmt::Display>(msg: T) -> Refused {
        Refused(msg.to_string())
    }
}

fn other<T>() -> Result<T, Refused> {
    Err(Refused("a value of another kind".into()))
}

macro_rules! write_none {
    ($($name:ident: $kind:ty),*) => {
        $(
            fn $name(self, _: $kind) -> Result<Self::Ok, Refused> {
                other()
            }
        )*
    };
}

/// What a `Serializer` here has no use for.
macro_rules! writes_no_other {
    () => {
        type Error = Refused;
        type SerializeSeq = Impossible<Self::Ok, Refused>;
        type SerializeTupleStruct = Impossible<Self::Ok, Refused>;
        type SerializeTupleVariant = Impossible<Self::Ok, Refused>;
        type SerializeMap = Impossible<Self::Ok, Refused>;
        type SerializeStruct = Impossible<Self::Ok, Refused>;
        type SerializeStructVariant = Impossible<Self::Ok, Refused>;

        write_none!(serialize_bool: bool, serialize_i8: i8, serialize_i16: i16, serialize_i32: i32, serialize_i64: i64);
        write_none!(serialize_u16: u16, serialize_u32: u32, serialize_u64: u64, serialize_f32: f32, serialize_f64: f64);
        write_none!(serialize_char: char, serialize_bytes: &[u8], serialize_unit_struct: &'static str);

        fn serialize_none(self) -> Result<Self::Ok, Refused> {
            other()
        }

        fn serialize_some<T: ?Sized + Serialize>(self, _: &T) -> Result<Self::Ok, Refused> {
            other()
        }

        fn serialize_unit_variant(self, _: &'static str, _: u32, _: &'static str) -> Result<Self::Ok, Refused> {
            other()
        }

        fn serialize_newtype_variant<T: ?Sized + Serialize>(
            self, _: &'static str, _: u32, _: &'static str, _: &T,
        ) -> Result<Self::Ok, Refused> {
            other()
        }

        fn serialize_seq(self, _: Option<usize>) -> Result<Self::SerializeSeq, Refused> {
            other()
        }

        fn serialize_tuple_struct(self, _: &'static str, _: usize) -> Result<Self::SerializeTupleStruct, Refused> {
            other()
        }

        fn serialize_tuple_variant(
            self, _: &'static str, _: u32, _: &'static str, _: usize,
        ) -> Result<Self::SerializeTupleVariant, Refused> {
            other()
        }

        fn serialize_map(self, _: Option<usize>) -> Result<Self::SerializeMap, Refused> {
            other()
        }

        fn serialize_struct(self, _: &'static str, _: usize) -> Result<Self::SerializeStruct, Refused> {
            other()
        }

        fn serialize_struct_variant(
            self, _: &'static str, _: u32, _: &'static str, _: usize,
        ) -> Result<Self::SerializeStructVariant, Refused> {
            other()
        }
    };
}

/// Writes a string, for people.
struct ToText;

impl Serializer for ToText {
    type Ok = String;
    type SerializeTuple = Impossible<String, Refused>;
    writes_no_other!();
    write_none!(serialize_u8: u8);

    fn serialize_str(self, text: &str) -> Result<String, Refused> {
        Ok(text.into())
    }

    fn serialize_unit(self) -> Result<String, Refused> {
        other()
    }

    fn serialize_newtype_struct<T: ?Sized + Serialize>(self, _: &'static str, _: &T) -> Result<String, Refused> {
        other()
    }

    fn serialize_tuple(self, _: usize) -> Result<Self::SerializeTuple, Refused> {
        other()
    }
}

/// Writes bytes: those of a value, and `n` and `t` where a newtype and a tuple begin, with a tuple's length.
struct ToBytes<'a>(&'a mut Vec<u8>);

impl<'a> Serializer for ToBytes<'a> {
    type Ok = ();
    type SerializeTuple = ToBytes<'a>;
    writes_no_other!();
    write_none!(serialize_str: &str);

    fn serialize_u8(self, byte: u8) -> Result<(), Refused> {
        self.0.push(byte);
        Ok(())
    }

    fn serialize_unit(self) -> Result<(), Refused> {
        Ok(())
    }

    fn serialize_newtype_struct<T: ?Sized + Serialize>(self, name: &'static str, value: &T) -> Result<(), Refused> {
        self.0.extend(format!("n{name} ").bytes());
        value.serialize(self)
    }

    fn serialize_tuple(self, len: usize) -> Result<ToBytes<'a>, Refused> {
        self.0.extend([b't', len as u8]);
        Ok(self)
    }

    fn is_human_readable(&self) -> bool {
        false
    }
}

impl SerializeTuple for ToBytes<'_> {
    type Ok = ();
    type Error = Refused;

    fn serialize_element<T: ?Sized + Serialize>(&mut self, value: &T) -> Result<(), Refused> {
        value.serialize(ToBytes(self.0))
    }

    fn end(self) -> Result<(), Refused> {
        Ok(())
    }
}

macro_rules! read_none {
    ($($name:ident($($of:ty),*)),*) => {
        $(
            fn $name<V: Visitor<'de>>(self, $(_: $of,)* _: V) -> Result<V::Value, Refused> {
                other()
            }
        )*
    };
}

/// What a `Deserializer` here has no use for.
macro_rules! reads_no_other {
    () => {
        type Error = Refused;
        read_none!(deserialize_any(), deserialize_bool(), deserialize_i8(), deserialize_i16(), deserialize_i32(), deserialize_i64());
        read_none!(deserialize_u16(), deserialize_u32(), deserialize_u64(), deserialize_f32(), deserialize_f64(), deserialize_char());
        read_none!(deserialize_string(), deserialize_bytes(), deserialize_byte_buf(), deserialize_option(), deserialize_seq());
        read_none!(deserialize_map(), deserialize_identifier(), deserialize_ignored_any(), deserialize_unit_struct(&'static str));
        read_none!(deserialize_tuple_struct(&'static str, usize), deserialize_struct(&'static str, &'static [&'static str]));
        read_none!(deserialize_enum(&'static str, &'static [&'static str]));
    };
}

/// Reads a string, for people.
struct OfText<'de>(&'de str);

impl<'de> Deserializer<'de> for OfText<'de> {
    reads_no_other!();
    read_none!(deserialize_u8(), deserialize_unit(), deserialize_newtype_struct(&'static str), deserialize_tuple(usize));

    fn deserialize_str<V: Visitor<'de>>(self, visitor: V) -> Result<V::Value, Refused> {
        visitor.visit_borrowed_str(self.0)
    }
}

/// Reads bytes that `ToBytes` wrote.
struct OfBytes<'a, 'de>(&'a mut &'de [u8]);

impl<'de> OfBytes<'_, 'de> {
    fn take(&mut self, wanted: &[u8]) -> Result<(), Refused> {
        *self.0 = self.0.strip_prefix(wanted).ok_or(Refused("other bytes".into()))?;
        Ok(())
    }
}

impl<'de> Deserializer<'de> for OfBytes<'_, 'de> {
    reads_no_other!();
    read_none!(deserialize_str());

    fn deserialize_u8<V: Visitor<'de>>(self, visitor: V) -> Result<V::Value, Refused> {
        let (first, rest) = self.0.split_first().ok_or(Refused("no byte".into()))?;
        *self.0 = rest;
        visitor.visit_u8(*first)
    }

    fn deserialize_unit<V: Visitor<'de>>(self, visitor: V) -> Result<V::Value, Refused> {
        visitor.visit_unit()
    }

    fn deserialize_newtype_struct<V: Visitor<'de>>(mut self, name: &'static str, visitor: V) -> Result<V::Value, Refused> {
        self.take(format!("n{name} ").as_bytes())?;
        visitor.visit_newtype_struct(self)
    }

    fn deserialize_tuple<V: Visitor<'de>>(mut self, len: usize, visitor: V) -> Result<V::Value, Refused> {
        self.take(&[b't', len as u8])?;
        visitor.visit_seq(Items(self.0, len))
    }

    fn is_human_readable(&self) -> bool {
        false
    }
}

struct Items<'a, 'de>(&'a mut &'de [u8], usize);

impl<'de> SeqAccess<'de> for Items<'_, 'de> {
    type Error = Refused;

    fn next_element_seed<T: DeserializeSeed<'de>>(&mut self, seed: T) -> Result<Option<T::Value>, Refused> {
        if self.1 == 0 {
            return Ok(None);
        }
        self.1 -= 1;
        seed.deserialize(OfBytes(self.0)).map(Some)
    }
}

/// The bytes of a value.
fn bytes(value: &impl Serialize) -> Vec<u8> {
    let mut made = Vec::new();
    value.serialize(ToBytes(&mut made)).unwrap();
    made
}

fn of_bytes<'de, T: Deserialize<'de>>(mut given: &'de [u8]) -> Result<T, Refused> {
    T::deserialize(OfBytes(&mut given))
}

/// Whether a value is written so both ways, and read as it was.
fn is_written<T>(value: T, text: &str, name: &str, tag: u8, octets: &[u8])
where
    T: Serialize + for<'de> Deserialize<'de> + PartialEq + fmt::Debug,
{
    assert_eq!(value.serialize(ToText).unwrap(), text);
    assert_eq!(T::deserialize(OfText(text)).unwrap(), value);
    let mut wanted = [b"n", name.as_bytes(), b" t\x02", &[tag]].concat();
    wanted.extend(if octets.is_empty() { vec![] } else { [&[b't', octets.len() as u8], octets].concat() });
    assert_eq!(bytes(&value), wanted);
    assert_eq!(of_bytes::<T>(&wanted).unwrap(), value);
    for len in 0..wanted.len() - octets.is_empty() as usize {
        assert!(of_bytes::<T>(&wanted[..len]).is_err(), "the first {len} bytes of {wanted:?}");
    }
}

const OF_V6: [u8; 16] = [0x20, 1, 0xd, 0xb8, 0, 0, 0, 0, 0, 0, 0, 0, 0, 0, 0, 0];

#[test]
fn values_are_strings_for_people_and_compact_bytes_else() {
    is_written::<Ipv4Cidr>("192.0.2.0/24".parse().unwrap(), "192.0.2.0/24", "Ipv4Cidr", 24, &[192, 0, 2, 0]);
    is_written::<Ipv6Cidr>("2001:db8::/32".parse().unwrap(), "2001:db8::/32", "Ipv6Cidr", 96, &OF_V6);
    is_written::<IpCidr>("192.0.2.1".parse().unwrap(), "192.0.2.1", "IpCidr", 32, &[192, 0, 2, 1]);
    is_written::<IpCidr>("2001:db8::/32".parse().unwrap(), "2001:db8::/32", "IpCidr", 96, &OF_V6);
    is_written::<AnyIpCidr>("0.0.0.0/0".parse().unwrap(), "0.0.0.0/0", "AnyIpCidr", 0, &[0; 4]);
    is_written::<AnyIpCidr>("::/0".parse().unwrap(), "::/0", "AnyIpCidr", 64, &[0; 16]);
    is_written::<AnyIpCidr>(AnyIpCidr::Any, "any", "AnyIpCidr", 255, &[]);
    is_written::<Ipv4Inet>("192.0.2.7/24".parse().unwrap(), "192.0.2.7/24", "Ipv4Inet", 24, &[192, 0, 2, 7]);
    is_written::<Ipv6Inet>("2001:db8::".parse().unwrap(), "2001:db8::", "Ipv6Inet", 192, &OF_V6);
    is_written::<IpInet>("192.0.2.7/24".parse().unwrap(), "192.0.2.7/24", "IpInet", 24, &[192, 0, 2, 7]);
}

/// What is read in a `pair` of a tag and octets, as a value of this name.
fn of_pair<'de, T: Deserialize<'de>>(name: &str, tag: u8, octets: &[u8]) -> Result<T, Refused> {
    let given = [b"n", name.as_bytes(), b" t\x02", &[tag, b't', octets.len() as u8], octets].concat();
    of_bytes(Box::leak(given.into_boxed_slice()))
}

#[test]
fn what_is_none_is_refused() {
    for text in ["192.0.2.1/24", "192.0.2.0/33", "2001:db8::/32", "any", "", "192.0.2.0/24 "] {
        assert!(Ipv4Cidr::deserialize(OfText(text)).is_err(), "{text}");
    }
    assert!(IpCidr::deserialize(OfText("any")).is_err());
    for tag in 0..=255 {
        let of_v4 = of_pair::<Ipv4Cidr>("Ipv4Cidr", tag, &[0; 4]);
        assert_eq!(of_v4.is_ok(), tag <= 32, "{tag}");
        assert_eq!(of_pair::<Ipv6Inet>("Ipv6Inet", tag, &[0; 16]).is_ok(), (64..=192).contains(&tag), "{tag}");
        assert_eq!(of_pair::<IpCidr>("IpCidr", tag, &[0; 4]).is_ok(), tag <= 32, "{tag}");
        assert_eq!(of_pair::<IpCidr>("IpCidr", tag, &[0; 16]).is_ok(), (64..=192).contains(&tag), "{tag}");
    }
    assert_eq!(of_pair::<Ipv4Cidr>("Ipv4Cidr", 255, &[]), Err(Refused("no such network or host".into())));
    assert!(of_pair::<Ipv4Cidr>("Ipv4Cidr", 24, &[192, 0, 2, 1]).is_err(), "a host part that is not zero");
    assert!(of_pair::<Ipv4Inet>("Ipv4Inet", 24, &[192, 0, 2, 1]).is_ok());
    assert!(of_pair::<Ipv4Cidr>("Ipv6Cidr", 24, &[192, 0, 2, 0]).is_err(), "another name");
}
