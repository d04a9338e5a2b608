//! The IPv6 address.

use crate::addr::error::AddrParseError;
use crate::addr::print_v6::push_hex_groups;
use crate::addr::read_v6::read_ipv6;
use crate::addr::v4::Ipv4Addr;
use crate::arithmetic::halves::Halves;
use crate::cidr::network::Ipv6Cidr;
use crate::inet::host::Ipv6Inet;
use crate::inet_pair::host_pair::Ipv6InetPair;
use crate::text::print::append;
use crate::traits::Address;
use cidr_support::arrayvec::ArrayString;
use core::cmp::Ordering;
use core::fmt;
use core::hash::{Hash, Hasher};
use core::str::FromStr;

/// An IPv6 address of 128 bits.
///
/// It is parsed from each string that RFC 4291, 2.2 allows, in either case, and printed as RFC 5952 has it. A zone, as
/// in fe80::1%1, and brackets are an error. Addresses are ordered by number. An IPv4-mapped address, as
/// ::ffff:192.0.2.1, stays an IPv6 address.
///
/// ```
/// # use cidr::{canon::*, errors::*, parsers::*, *};
/// assert_eq!(format!("{}", "2001:DB8:0:0:0:0:0:1".parse::<Ipv6Addr>()?), "2001:db8::1");
/// assert_eq!(format!("{:?}", "fe80::1%1".parse::<Ipv6Addr>()), "Err(invalid IPv6 address syntax)");
/// # Ok::<(), Box<dyn std::error::Error>>(())
/// ```
#[derive(Clone, Copy)]
pub struct Ipv6Addr {
    upper: u64,
    lower: u64,
}

impl Ipv6Addr {
    /// The address with these eight groups of 16 bits, most significant first.
    ///
    /// ```
    /// # use cidr::{canon::*, errors::*, parsers::*, *};
    /// assert_eq!(format!("{}", Ipv6Addr::new(0x2001, 0xdb8, 0, 0, 0, 0, 0, 1)), "2001:db8::1");
    /// # Ok::<(), Box<dyn std::error::Error>>(())
    /// ```
    #[inline]
    pub fn new(a: u16, b: u16, c: u16, d: u16, e: u16, f: u16, g: u16, h: u16) -> Ipv6Addr {
        Ipv6Addr {
            upper: half_of(a, b, c, d),
            lower: half_of(e, f, g, h),
        }
    }

    /// The eight groups of 16 bits, most significant first.
    ///
    /// ```
    /// # use cidr::{canon::*, errors::*, parsers::*, *};
    /// assert_eq!(format!("{:?}", Ipv6Addr::from_bits(65536).segments()), "[0, 0, 0, 0, 0, 0, 1, 0]");
    /// # Ok::<(), Box<dyn std::error::Error>>(())
    /// ```
    pub fn segments(&self) -> [u16; 8] {
        [
            group_at(self.upper, 48),
            group_at(self.upper, 32),
            group_at(self.upper, 16),
            group_at(self.upper, 0),
            group_at(self.lower, 48),
            group_at(self.lower, 32),
            group_at(self.lower, 16),
            group_at(self.lower, 0),
        ]
    }

    /// The sixteen octets, most significant first: the address in network byte order.
    ///
    /// ```
    /// # use cidr::{canon::*, errors::*, parsers::*, *};
    /// assert_eq!(format!("{:?}", Ipv6Addr::from_bits(258).octets()), "[0, 0, 0, 0, 0, 0, 0, 0, 0, 0, 0, 0, 0, 0, 1, 2]");
    /// # Ok::<(), Box<dyn std::error::Error>>(())
    /// ```
    #[inline]
    pub fn octets(&self) -> [u8; 16] {
        self.to_bits().to_be_bytes()
    }

    /// The address with this number, whose most significant bits are those of the first group.
    ///
    /// ```
    /// # use cidr::{canon::*, errors::*, parsers::*, *};
    /// assert_eq!(format!("{}", Ipv6Addr::from_bits(1)), "::1");
    /// # Ok::<(), Box<dyn std::error::Error>>(())
    /// ```
    #[inline]
    pub fn from_bits(value: u128) -> Ipv6Addr {
        Ipv6Addr::from_halves(Halves::split(value))
    }

    /// The address as a number, whose most significant bits are those of the first group.
    ///
    /// ```
    /// # use cidr::{canon::*, errors::*, parsers::*, *};
    /// assert_eq!("::1:0".parse::<Ipv6Addr>()?.to_bits(), 65536);
    /// # Ok::<(), Box<dyn std::error::Error>>(())
    /// ```
    #[inline]
    pub fn to_bits(self) -> u128 {
        self.halves().join()
    }

    /// The address with this number, in halves.
    #[inline]
    pub(crate) fn from_halves(value: Halves) -> Ipv6Addr {
        Ipv6Addr {
            upper: value.upper(),
            lower: value.lower(),
        }
    }

    /// The address as a number, in halves.
    #[inline]
    pub(crate) fn halves(self) -> Halves {
        Halves::new(self.upper, self.lower)
    }

    /// Whether this is an IPv4-mapped address: five groups of zeros, one of ones, and two more.
    #[inline]
    fn is_mapped(&self) -> bool {
        self.upper == 0 && self.lower >> 32 == 0xffff
    }

    /// Appends the printed string.
    #[inline(always)]
    pub(crate) fn push_to<const CAP: usize>(&self, text: &mut ArrayString<CAP>) {
        if self.is_mapped() {
            text.push_str("::ffff:");
            Ipv4Addr::from_bits((self.halves().lower() & 0xffff_ffff) as u32).push_to(text);
        } else {
            push_hex_groups(text, &self.segments());
        }
    }

    /// The printed string, in an `ArrayString`, so that nothing is allocated. It has at most 39 bytes. Parsing it gives
    /// the same address.
    ///
    /// It is the one canonical form of RFC 5952: lower case, no leading zeros, the longest run of two or more zero
    /// groups as `::`, of equally long runs the first one, and an IPv4-mapped address with its last 32 bits as an IPv4
    /// address.
    ///
    /// ```
    /// # use cidr::{canon::*, errors::*, parsers::*, *};
    /// assert_eq!(format!("{}", "2001:db8:0:0:1:0:0:1".parse::<Ipv6Addr>()?.to_text()), "2001:db8::1:0:0:1");
    /// assert_eq!(format!("{}", "::FFFF:C000:201".parse::<Ipv6Addr>()?.to_text()), "::ffff:192.0.2.1");
    /// # Ok::<(), Box<dyn std::error::Error>>(())
    /// ```
    #[inline]
    pub fn to_text(&self) -> ArrayString<39> {
        let mut text = ArrayString::new();
        self.push_to(&mut text);
        text
    }

    /// Appends the printed string, as `to_text` gives it, to one that the caller has. Where there is no room for the whole
    /// of it, it fails, and the string is as it was.
    ///
    /// ```
    /// # use cidr::{canon::*, errors::*, parsers::*, *};
    /// use cidr_support::arrayvec::ArrayString;
    /// let mut text = ArrayString::<39>::new();
    /// "2001:DB8::1".parse::<Ipv6Addr>()?.write_to(&mut text)?;
    /// assert_eq!(format!("{}", text), "2001:db8::1");
    /// # Ok::<(), Box<dyn std::error::Error>>(())
    /// ```
    ///
    /// # Errors
    ///
    /// `fmt::Error` where there is no room for the whole string, and then nothing is appended.
    #[inline]
    pub fn write_to<const CAP: usize>(&self, text: &mut ArrayString<CAP>) -> fmt::Result {
        if CAP - text.len() < 39 {
            return append(text, self.to_text().as_str());
        }
        self.push_to(text);
        Ok(())
    }
}

/// The half that four groups write.
#[inline]
fn half_of(a: u16, b: u16, c: u16, d: u16) -> u64 {
    let two = u64::from(a) * 65536 + u64::from(b);
    let three = two * 65536 + u64::from(c);
    three * 65536 + u64::from(d)
}

/// The group of a half that so many bits follow.
#[inline]
fn group_at(half: u64, shift: u8) -> u16 {
    (half >> shift & 0xffff) as u16
}

impl From<u128> for Ipv6Addr {
    #[inline]
    fn from(value: u128) -> Ipv6Addr {
        Ipv6Addr::from_bits(value)
    }
}

impl From<[u8; 16]> for Ipv6Addr {
    #[inline]
    fn from(octets: [u8; 16]) -> Ipv6Addr {
        Ipv6Addr::from_bits(u128::from_be_bytes(octets))
    }
}

impl From<[u16; 8]> for Ipv6Addr {
    #[inline]
    fn from(groups: [u16; 8]) -> Ipv6Addr {
        let [a, b, c, d, e, f, g, h] = groups;
        Ipv6Addr::new(a, b, c, d, e, f, g, h)
    }
}

impl PartialEq for Ipv6Addr {
    #[inline]
    fn eq(&self, other: &Ipv6Addr) -> bool {
        self.upper == other.upper && self.lower == other.lower
    }
}

impl Eq for Ipv6Addr {}

impl PartialOrd for Ipv6Addr {
    #[inline]
    fn partial_cmp(&self, other: &Ipv6Addr) -> Option<Ordering> {
        Some(self.cmp(other))
    }
}

impl Ord for Ipv6Addr {
    #[inline]
    fn cmp(&self, other: &Ipv6Addr) -> Ordering {
        match self.upper.cmp(&other.upper) {
            Ordering::Equal => self.lower.cmp(&other.lower),
            unlike => unlike,
        }
    }
}

impl Hash for Ipv6Addr {
    #[inline]
    fn hash<H: Hasher>(&self, state: &mut H) {
        self.to_bits().hash(state);
    }
}

impl FromStr for Ipv6Addr {
    type Err = AddrParseError;

    #[inline]
    fn from_str(s: &str) -> Result<Ipv6Addr, AddrParseError> {
        match read_ipv6(s.as_bytes()) {
            Some(value) => Ok(Ipv6Addr::from_bits(value)),
            None => Err(AddrParseError::ipv6()),
        }
    }
}

impl fmt::Display for Ipv6Addr {
    #[inline]
    fn fmt(&self, f: &mut fmt::Formatter<'_>) -> fmt::Result {
        f.write_str(self.to_text().as_str())
    }
}

impl fmt::Debug for Ipv6Addr {
    #[inline]
    fn fmt(&self, f: &mut fmt::Formatter<'_>) -> fmt::Result {
        fmt::Display::fmt(self, f)
    }
}

impl Address for Ipv6Addr {
    type Inet = Ipv6Inet;

    type Cidr = Ipv6Cidr;

    type InetPair = Ipv6InetPair;

}
