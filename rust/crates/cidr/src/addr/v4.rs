//! The IPv4 address.

use crate::addr::decimal::{push_decimal, push_decimal_dot};
use crate::addr::error::AddrParseError;
use crate::addr::read_v4::read_ipv4;
use crate::cidr::network::Ipv4Cidr;
use crate::inet::host::Ipv4Inet;
use crate::inet_pair::host_pair::Ipv4InetPair;
use crate::text::print::append;
use crate::traits::Address;
use cidr_support::arrayvec::ArrayString;
use core::cmp::Ordering;
use core::fmt;
use core::hash::{Hash, Hasher};
use core::str::FromStr;

/// An IPv4 address of 32 bits.
///
/// It is parsed from and printed as four decimal octets with dots between them (`IPv4address` of RFC 3986, 3.2.2). An
/// octet with a leading zero is an error, since some systems take it as octal; [`parsers`](crate::parsers) has looser
/// parsers. Addresses are ordered by number.
///
/// ```
/// # use cidr::{canon::*, errors::*, parsers::*, *};
/// assert_eq!(format!("{}", "192.0.2.1".parse::<Ipv4Addr>()?), "192.0.2.1");
/// assert_eq!(format!("{:?}", "192.0.2.01".parse::<Ipv4Addr>()), "Err(invalid IPv4 address syntax)");
/// # Ok::<(), Box<dyn std::error::Error>>(())
/// ```
#[derive(Clone, Copy)]
pub struct Ipv4Addr {
    raw: u32,
}

impl Ipv4Addr {
    /// The address with these four octets, most significant first.
    ///
    /// ```
    /// # use cidr::{canon::*, errors::*, parsers::*, *};
    /// assert_eq!(format!("{}", Ipv4Addr::new(192, 0, 2, 1)), "192.0.2.1");
    /// # Ok::<(), Box<dyn std::error::Error>>(())
    /// ```
    #[inline]
    pub fn new(a: u8, b: u8, c: u8, d: u8) -> Ipv4Addr {
        Ipv4Addr {
            raw: u32::from_be_bytes([a, b, c, d]),
        }
    }

    /// The four octets, most significant first: the address in network byte order.
    ///
    /// ```
    /// # use cidr::{canon::*, errors::*, parsers::*, *};
    /// assert_eq!(format!("{:?}", Ipv4Addr::new(192, 0, 2, 1).octets()), "[192, 0, 2, 1]");
    /// # Ok::<(), Box<dyn std::error::Error>>(())
    /// ```
    #[inline]
    pub fn octets(&self) -> [u8; 4] {
        self.raw.to_be_bytes()
    }

    /// The address with this number, whose most significant bits are those of the first octet.
    ///
    /// ```
    /// # use cidr::{canon::*, errors::*, parsers::*, *};
    /// assert_eq!(format!("{}", Ipv4Addr::from_bits(0xc0000201)), "192.0.2.1");
    /// assert_eq!(format!("{}", Ipv4Addr::from_bits(256)), "0.0.1.0");
    /// # Ok::<(), Box<dyn std::error::Error>>(())
    /// ```
    #[inline]
    pub fn from_bits(value: u32) -> Ipv4Addr {
        Ipv4Addr { raw: value }
    }

    /// The address as a number, whose most significant bits are those of the first octet.
    ///
    /// ```
    /// # use cidr::{canon::*, errors::*, parsers::*, *};
    /// assert_eq!(Ipv4Addr::new(192, 0, 2, 1).to_bits(), 3221225985);
    /// # Ok::<(), Box<dyn std::error::Error>>(())
    /// ```
    #[inline]
    pub fn to_bits(self) -> u32 {
        self.raw
    }

    /// Appends the printed string.
    #[inline(always)]
    pub(crate) fn push_to<const CAP: usize>(&self, text: &mut ArrayString<CAP>) {
        let [a, b, c, d] = self.octets();
        push_decimal_dot(text, a);
        push_decimal_dot(text, b);
        push_decimal_dot(text, c);
        push_decimal(text, d);
    }

    /// The printed string, four decimal octets, in an `ArrayString`, so that nothing is allocated. It has at most 15
    /// bytes. Parsing it gives the same address.
    ///
    /// ```
    /// # use cidr::{canon::*, errors::*, parsers::*, *};
    /// assert_eq!(format!("{}", Ipv4Addr::new(192, 0, 2, 1).to_text()), "192.0.2.1");
    /// # Ok::<(), Box<dyn std::error::Error>>(())
    /// ```
    #[inline]
    pub fn to_text(&self) -> ArrayString<39> {
        let mut text = ArrayString::new();
        self.push_to(&mut text);
        text
    }

    /// Appends the printed string, as `to_text` gives it, to one that the caller has. Where there is no room for the whole
    /// of it, it fails, and the string is as it was.
    ///
    /// ```
    /// # use cidr::{canon::*, errors::*, parsers::*, *};
    /// use cidr_support::arrayvec::ArrayString;
    /// let mut text = ArrayString::<15>::new();
    /// Ipv4Addr::new(192, 0, 2, 1).write_to(&mut text)?;
    /// assert_eq!(format!("{}", text), "192.0.2.1");
    /// # Ok::<(), Box<dyn std::error::Error>>(())
    /// ```
    ///
    /// # Errors
    ///
    /// `fmt::Error` where there is no room for the whole string, and then nothing is appended.
    #[inline]
    pub fn write_to<const CAP: usize>(&self, text: &mut ArrayString<CAP>) -> fmt::Result {
        if CAP - text.len() < 15 {
            return append(text, self.to_text().as_str());
        }
        self.push_to(text);
        Ok(())
    }
}

impl From<u32> for Ipv4Addr {
    #[inline]
    fn from(value: u32) -> Ipv4Addr {
        Ipv4Addr::from_bits(value)
    }
}

impl From<[u8; 4]> for Ipv4Addr {
    #[inline]
    fn from(octets: [u8; 4]) -> Ipv4Addr {
        let [a, b, c, d] = octets;
        Ipv4Addr::new(a, b, c, d)
    }
}

impl PartialEq for Ipv4Addr {
    #[inline]
    fn eq(&self, other: &Ipv4Addr) -> bool {
        self.raw == other.raw
    }
}

impl Eq for Ipv4Addr {}

impl PartialOrd for Ipv4Addr {
    #[inline]
    fn partial_cmp(&self, other: &Ipv4Addr) -> Option<Ordering> {
        Some(self.cmp(other))
    }
}

impl Ord for Ipv4Addr {
    #[inline]
    fn cmp(&self, other: &Ipv4Addr) -> Ordering {
        self.raw.cmp(&other.raw)
    }
}

impl Hash for Ipv4Addr {
    #[inline]
    fn hash<H: Hasher>(&self, state: &mut H) {
        self.raw.hash(state);
    }
}

impl FromStr for Ipv4Addr {
    type Err = AddrParseError;

    #[inline]
    fn from_str(s: &str) -> Result<Ipv4Addr, AddrParseError> {
        match read_ipv4(s.as_bytes()) {
            Some(octets) => Ok(Ipv4Addr::from(octets)),
            None => Err(AddrParseError::ipv4()),
        }
    }
}

impl fmt::Display for Ipv4Addr {
    #[inline]
    fn fmt(&self, f: &mut fmt::Formatter<'_>) -> fmt::Result {
        f.write_str(self.to_text().as_str())
    }
}

impl fmt::Debug for Ipv4Addr {
    #[inline]
    fn fmt(&self, f: &mut fmt::Formatter<'_>) -> fmt::Result {
        fmt::Display::fmt(self, f)
    }
}

impl Address for Ipv4Addr {
    type Inet = Ipv4Inet;

    type Cidr = Ipv4Cidr;

    type InetPair = Ipv4InetPair;

}
