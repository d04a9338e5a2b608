//! Loose IPv4 strings, as POSIX `inet_addr` parses them.

use crate::addr::error::AddrParseError;
use crate::addr::ip::IpAddr;
use crate::addr::read_v4::take_byte;
use crate::addr::v4::Ipv4Addr;
use crate::parsers::parts::{Part, after_plus, read_parts, take_number};

/// A decimal, octal or hexadecimal number below 2^32.
struct LoosePart;

/// The radix of the number at the front, and the string from its digits on.
#[inline]
fn radix_and_digits(text: &[u8]) -> (u32, &[u8]) {
    match take_byte(text, b'0') {
        Some([b'x' | b'X', digits @ ..]) => (16, digits),
        Some(_) => (8, text),
        None => (10, after_plus(text)),
    }
}

impl Part for LoosePart {
    #[inline]
    fn take(text: &[u8]) -> Option<(u32, &[u8])> {
        let (radix, digits) = radix_and_digits(text);
        // each with a radix that the compiler knows
        match radix {
            16 => take_number(digits, 16, u32::MAX),
            10 => take_number(digits, 10, u32::MAX),
            _ => take_number(digits, 8, u32::MAX),
        }
    }
}

/// The IPv4 address of a loose string: one to four numbers joined by dots, as POSIX `inet_addr` parses it.
///
/// The last number fills what the octets before it leave of the 32 bits. A number that begins with `0x` or `0X` is
/// hexadecimal, any other that begins with `0` is octal, and the rest are decimal: `010` is 8, and `08` is no number. A
/// decimal number may have a plus before it, as in the crate `cidr`, and then zeros: `+010` is 10. There may be any
/// number of leading zeros, and no number wraps: for `4294967296`, `256.1` and `1.16777216` it returns `None`. So it
/// does where anything else stands before or after the numbers, also white space, which some C libraries skip;
/// 255.255.255.255 is an address like any other, and no error as in C.
///
/// ```
/// # use cidr::{canon::*, errors::*, parsers::*, *};
/// assert_eq!(format!("{:?}", inet_addr("127.1")), "Some(127.0.0.1)");
/// assert_eq!(format!("{:?}", inet_addr("10.0x20.513")), "Some(10.32.2.1)");
/// assert_eq!(format!("{:?}", inet_addr("3221225985")), "Some(192.0.2.1)");
/// assert_eq!(format!("{:?}", inet_addr("08.1.1.1")), "None");
/// # Ok::<(), Box<dyn std::error::Error>>(())
/// ```
#[inline]
pub fn inet_addr(s: &str) -> Option<Ipv4Addr> {
    let parts = read_parts::<LoosePart>(s.as_bytes())?;
    let free = 32 - 8 * parts.count;
    let last = u64::from(parts.last);
    if last >> free != 0 {
        return None;
    }
    Some(Ipv4Addr::from_bits(((u64::from(parts.front) << free) + last) as u32))
}

/// The IPv4 address of a string, strict or loose: what `Ipv4Addr` parses, and else what [`inet_addr`] parses.
///
/// A strict string is a loose string of the same address. The error is that of `Ipv4Addr`.
///
/// ```
/// # use cidr::{canon::*, errors::*, parsers::*, *};
/// assert_eq!(format!("{}", parse_loose_ipv4("127.1")?), "127.0.0.1");
/// assert_eq!(format!("{:?}", parse_loose_ipv4("256.1")), "Err(invalid IPv4 address syntax)");
/// # Ok::<(), Box<dyn std::error::Error>>(())
/// ```
///
/// # Errors
///
/// `AddrParseError` for a string that is no address.
#[inline]
pub fn parse_loose_ipv4(s: &str) -> Result<Ipv4Addr, AddrParseError> {
    match s.parse::<Ipv4Addr>() {
        Ok(address) => Ok(address),
        Err(e) => inet_addr(s).ok_or(e),
    }
}

/// The address of a string of either family: what `IpAddr` parses, and else the IPv4 address that [`inet_addr`] parses.
/// IPv6 strings are not parsed loosely.
///
/// The error is that of `IpAddr`.
///
/// ```
/// # use cidr::{canon::*, errors::*, parsers::*, *};
/// assert_eq!(format!("{}", parse_loose_ip("0x7f000001")?), "127.0.0.1");
/// assert_eq!(format!("{}", parse_loose_ip("::1")?), "::1");
/// # Ok::<(), Box<dyn std::error::Error>>(())
/// ```
///
/// # Errors
///
/// `AddrParseError` for a string that is no address.
#[inline]
pub fn parse_loose_ip(s: &str) -> Result<IpAddr, AddrParseError> {
    match s.parse::<IpAddr>() {
        Ok(address) => Ok(address),
        Err(e) => match inet_addr(s) {
            Some(address) => Ok(IpAddr::V4(address)),
            None => Err(e),
        },
    }
}
