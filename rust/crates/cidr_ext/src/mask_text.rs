//! Networks as strings with a mask in place of the prefix length.

use crate::address::AddressExt;
use crate::families::WholeFamily;
use crate::numbered::CidrExt;
use cidr_support::arrayvec::ArrayString;
use cidr::{Address, Cidr, Family, IpAddr, Ipv4Addr, Ipv6Addr};
use core::error::Error;
use core::fmt;

/// Networks as strings with a mask in place of the prefix length, for `Ipv4Cidr`, `Ipv6Cidr` and `IpCidr`.
///
/// A network mask has as many set bits as the prefix length says, then zeros (RFC 4632, 3.1); a host mask, which access
/// lists of routers have, is its inverse. Nothing is allocated.
pub trait CidrMaskText: Sized + Cidr {
    /// The first address, a slash and the network mask: at most 31 bytes in IPv4 and 79 in IPv6.
    ///
    /// ```
    /// # use cidr::*;
    /// # use cidr_ext::*;
    /// assert_eq!(format!("{}", "192.0.2.0/24".parse::<Ipv4Cidr>()?.to_mask_text()), "192.0.2.0/255.255.255.0");
    /// assert_eq!(format!("{}", "2001:db8::/32".parse::<Ipv6Cidr>()?.to_mask_text()), "2001:db8::/ffff:ffff::");
    /// # Ok::<(), Box<dyn std::error::Error>>(())
    /// ```
    fn to_mask_text(&self) -> ArrayString<79>;

    /// The first address, a slash and the host mask: at most 31 bytes in IPv4 and 79 in IPv6.
    ///
    /// `from_mask_text` returns the network again, but for the shortest and the longest prefix length, whose host masks
    /// are the network masks of each other.
    ///
    /// ```
    /// # use cidr::*;
    /// # use cidr_ext::*;
    /// assert_eq!(format!("{}", "192.0.2.0/24".parse::<Ipv4Cidr>()?.to_host_mask_text()), "192.0.2.0/0.0.0.255");
    /// # Ok::<(), Box<dyn std::error::Error>>(())
    /// ```
    fn to_host_mask_text(&self) -> ArrayString<79>;

    /// The network that a string with a network mask or a host mask represents, as Python's `ipaddress` parses it in
    /// IPv4. Address and mask are parsed as addresses of the family are; a prefix length is no mask, and an address
    /// alone no network. It takes time in the length of the string.
    ///
    /// A mask that could be either is a network mask: 0.0.0.0 is that of /0, and 255.255.255.255 that of /32. The
    /// errors, of which the first one is returned, are in the order of `MaskParseError`.
    ///
    /// ```
    /// # use cidr::*;
    /// # use cidr_ext::*;
    /// assert_eq!(format!("{:?}", Ipv4Cidr::from_mask_text("192.0.2.0/255.255.255.0")), "Ok(192.0.2.0/24)");
    /// assert_eq!(format!("{:?}", Ipv4Cidr::from_mask_text("192.0.2.0/0.0.0.255")), "Ok(192.0.2.0/24)");
    /// assert_eq!(format!("{:?}", Ipv4Cidr::from_mask_text("192.0.2.0/255.0.255.0")), "Err(mask is not contiguous)");
    /// assert_eq!(format!("{:?}", Ipv4Cidr::from_mask_text("192.0.2.1/0.0.0.255")), "Err(host part of address was not zero)");
    /// # Ok::<(), Box<dyn std::error::Error>>(())
    /// ```
    ///
    /// # Errors
    ///
    /// `MaskParseError`, whose variant says which part of the string is wrong.
    fn from_mask_text(text: &str) -> Result<Self, MaskParseError>;
}

/// Why a string is not parsed as a network with a mask: the first of these.
#[derive(Clone, Copy, PartialEq, Eq)]
pub enum MaskParseError {
    /// There is no slash: `no slash before a mask`.
    NoSlash,
    /// What precedes the last slash is no address: `invalid address`.
    InvalidAddress,
    /// What follows it is no address of the same family: `invalid mask`.
    InvalidMask,
    /// It is neither a network mask nor a host mask: its set bits are not all at the front, and not all at the end, as
    /// of 255.0.255.0 and of 0.255.0.0. `mask is not contiguous`.
    NonContiguousMask,
    /// A bit after the prefix is set: `host part of address was not zero`.
    InvalidHostPart,
}

impl MaskParseError {
    /// The message, as stated at each variant.
    ///
    /// ```
    /// # use cidr::*;
    /// # use cidr_ext::*;
    /// assert_eq!(format!("{}", MaskParseError::NoSlash.as_str()), "no slash before a mask");
    /// # Ok::<(), Box<dyn std::error::Error>>(())
    /// ```
    #[inline]
    pub fn as_str(&self) -> &'static str {
        match self {
            MaskParseError::NoSlash => "no slash before a mask",
            MaskParseError::InvalidAddress => "invalid address",
            MaskParseError::InvalidMask => "invalid mask",
            MaskParseError::NonContiguousMask => "mask is not contiguous",
            MaskParseError::InvalidHostPart => "host part of address was not zero",
        }
    }
}

impl fmt::Display for MaskParseError {
    #[inline]
    fn fmt(&self, f: &mut fmt::Formatter<'_>) -> fmt::Result {
        f.write_str(self.as_str())
    }
}

impl fmt::Debug for MaskParseError {
    #[inline]
    fn fmt(&self, f: &mut fmt::Formatter<'_>) -> fmt::Result {
        fmt::Display::fmt(self, f)
    }
}

impl Error for MaskParseError {}

impl<C: WholeFamily + CidrExt> CidrMaskText for C
where
    C::Address: AddressExt + PrintedAddress,
{
    #[inline]
    fn to_mask_text(&self) -> ArrayString<79> {
        with_mask(self.first_address(), self.mask())
    }

    #[inline]
    fn to_host_mask_text(&self) -> ArrayString<79> {
        with_mask(self.first_address(), self.host_mask())
    }

    #[inline]
    fn from_mask_text(text: &str) -> Result<C, MaskParseError> {
        match cut_at_last_slash(text) {
            Some((front, back)) => read_parts(front, back),
            None => Err(MaskParseError::NoSlash),
        }
    }
}

/// A type of addresses that can be appended to a string.
pub trait PrintedAddress: Sized + Address {
    /// Appends the address as it is printed.
    fn append_to(self, text: &mut ArrayString<79>);
}

impl PrintedAddress for Ipv4Addr {
    #[inline]
    fn append_to(self, text: &mut ArrayString<79>) {
        text.push_str(self.to_text().as_str());
    }
}

impl PrintedAddress for Ipv6Addr {
    #[inline]
    fn append_to(self, text: &mut ArrayString<79>) {
        text.push_str(self.to_text().as_str());
    }
}

impl PrintedAddress for IpAddr {
    #[inline]
    fn append_to(self, text: &mut ArrayString<79>) {
        match self {
            IpAddr::V4(address) => address.append_to(text),
            IpAddr::V6(address) => address.append_to(text),
        }
    }
}

/// Both addresses with a slash between them.
#[inline]
fn with_mask<A: PrintedAddress>(address: A, mask: A) -> ArrayString<79> {
    let mut text = ArrayString::new();
    address.append_to(&mut text);
    text.push('/');
    mask.append_to(&mut text);
    text
}

/// What precedes the last slash and what follows it, if there is one.
#[inline]
fn cut_at_last_slash(text: &str) -> Option<(&str, &str)> {
    text.rsplit_once('/')
}

/// The prefix length of a network mask, or of a host mask that is none.
#[inline]
pub(crate) fn length_of_mask<A: AddressExt>(mask: A) -> Option<u8> {
    match mask.mask_length() {
        Some(len) => Some(len),
        None => mask.host_mask_length(),
    }
}

/// The address of the type that a string represents.
#[inline]
fn parsed<A: Address>(text: &str) -> Option<A> {
    text.parse::<A>().ok()
}

/// The address of the type and of this family that a string represents.
#[inline]
fn parsed_in<A: AddressExt>(family: Family, text: &str) -> Option<A> {
    let address = parsed::<A>(text)?;
    if address.family() == family {
        Some(address)
    } else {
        None
    }
}

/// The network of an address and a mask.
fn read_parts<C: WholeFamily>(front: &str, back: &str) -> Result<C, MaskParseError>
where
    C::Address: AddressExt,
{
    let Some(address) = parsed::<C::Address>(front) else {
        return Err(MaskParseError::InvalidAddress);
    };
    let Some(mask) = parsed_in::<C::Address>(address.family(), back) else {
        return Err(MaskParseError::InvalidMask);
    };
    let Some(len) = length_of_mask(mask) else {
        return Err(MaskParseError::NonContiguousMask);
    };
    C::new(address, len)
        .ok()
        .ok_or(MaskParseError::InvalidHostPart)
}
