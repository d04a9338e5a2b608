//! Addresses anywhere in a line, as in a log: `Sets::have_one` finds them, and `first_address` the first one.

use crate::sets::Sets;
use cidr::{Family, IpAddr, Ipv4Addr, Ipv4Cidr, Ipv6Addr, Ipv6Cidr};

/// The bytes of the shortest IPv4 address, 0.0.0.0.
const LEAST_IPV4: usize = 7;

/// Whether a byte is a colon that addresses of this family may have.
#[inline]
fn joins(family: Family, byte: u8) -> bool {
    match family {
        Family::Ipv4 => false,
        Family::Ipv6 => byte == b':',
    }
}

/// Whether no word for this family has this byte.
#[inline]
fn ends_word(family: Family, byte: u8) -> bool {
    !(byte.is_ascii_alphanumeric() || byte == b'.' || joins(family, byte))
}

/// How many bytes the first word has.
#[inline]
fn word_len(family: Family, line: &[u8]) -> usize {
    line.iter()
        .position(|byte| ends_word(family, *byte))
        .unwrap_or(line.len())
}

/// A word without the dots at its end.
#[inline]
fn without_dots(word: &[u8]) -> &[u8] {
    let mut rest = word;
    while let Some((b'.', front)) = rest.split_last() {
        rest = front;
    }
    rest
}

/// Whether a word is too short for an address of IPv4, or has no colon for one of IPv6.
#[inline]
fn is_plain(family: Family, word: &[u8]) -> bool {
    match family {
        Family::Ipv4 => word.len() < LEAST_IPV4,
        Family::Ipv6 => !word.contains(&b':'),
    }
}

impl Sets {
    /// Whether there is no address of this family.
    #[inline]
    fn lack(&self, family: Family) -> bool {
        match family {
            Family::Ipv4 => self.v4.is_empty(),
            Family::Ipv6 => self.v6.is_empty(),
        }
    }

    /// Whether a string is an address of this family that is there.
    fn have_text(&self, family: Family, text: &[u8]) -> bool {
        let Ok(text) = core::str::from_utf8(text) else {
            return false;
        };
        match family {
            Family::Ipv4 => match text.parse::<Ipv4Addr>() {
                Ok(address) => self.v4.contains(&Ipv4Cidr::new_host(address)),
                Err(_) => false,
            },
            Family::Ipv6 => match text.parse::<Ipv6Addr>() {
                Ok(address) => self.v6.contains(&Ipv6Cidr::new_host(address)),
                Err(_) => false,
            },
        }
    }

    /// Whether a word without one colon behind it is an address of this family that is there.
    #[inline]
    fn have_before_colon(&self, family: Family, word: &[u8]) -> bool {
        match word.split_last() {
            Some((b':', front)) => self.have_text(family, front),
            _ => false,
        }
    }

    /// Whether a word is an address of this family that is there, with or without punctuation behind it.
    #[inline]
    fn have_word(&self, family: Family, word: &[u8]) -> bool {
        if is_plain(family, word) {
            return false;
        }
        self.have_text(family, without_dots(word)) || self.have_before_colon(family, word)
    }

    /// Whether a line has an address of this family that is there.
    fn have_one_of(&self, family: Family, line: &[u8]) -> bool {
        if self.lack(family) {
            return false;
        }
        let mut rest = line;
        loop {
            let (word, behind) = rest.split_at(word_len(family, rest));
            if self.have_word(family, word) {
                return true;
            }
            let Some((_, next)) = behind.split_first() else {
                return false;
            };
            rest = next;
        }
    }

    /// Whether a line has an address of the sets anywhere, as a line of a log has.
    ///
    /// An address is a word of ASCII letters, digits and dots, and for IPv6 colons, between other bytes: so in
    /// `[2001:db8::1]:80`, `192.0.2.1:80`, `192.0.2.1/24` and `fe80::1%eth0`, but not in `v192.0.2.1`. Dots at the end
    /// of a word, and one colon, may be punctuation. Of a network only the address counts.
    ///
    /// It passes the line once for each family of which the sets have addresses, with a binary search for each address.
    #[inline]
    pub fn have_one(&self, line: &[u8]) -> bool {
        self.have_one_of(Family::Ipv4, line) || self.have_one_of(Family::Ipv6, line)
    }
}

/// The address of this family that a string is.
fn address_in(family: Family, text: &[u8]) -> Option<IpAddr> {
    let Ok(text) = core::str::from_utf8(text) else {
        return None;
    };
    match family {
        Family::Ipv4 => match text.parse::<Ipv4Addr>() {
            Ok(address) => Some(IpAddr::V4(address)),
            Err(_) => None,
        },
        Family::Ipv6 => match text.parse::<Ipv6Addr>() {
            Ok(address) => Some(IpAddr::V6(address)),
            Err(_) => None,
        },
    }
}

/// The address of this family that a word is without one colon behind it.
#[inline]
fn address_before_colon(family: Family, word: &[u8]) -> Option<IpAddr> {
    match word.split_last() {
        Some((b':', front)) => address_in(family, front),
        _ => None,
    }
}

/// The address of this family that a word is, with or without punctuation behind it.
#[inline]
fn word_address(family: Family, word: &[u8]) -> Option<IpAddr> {
    if is_plain(family, word) {
        return None;
    }
    if let Some(address) = address_in(family, without_dots(word)) {
        return Some(address);
    }
    address_before_colon(family, word)
}

/// The first address of IPv4 in a word that may have colons.
fn first_ipv4(word: &[u8]) -> Option<IpAddr> {
    let mut rest = word;
    loop {
        let (part, behind) = rest.split_at(word_len(Family::Ipv4, rest));
        if let Some(address) = word_address(Family::Ipv4, part) {
            return Some(address);
        }
        let Some((_, next)) = behind.split_first() else {
            return None;
        };
        rest = next;
    }
}

/// The address that a word says which may have colons: that of IPv6 which it is, or the first of IPv4 in it.
#[inline]
fn address_said(word: &[u8]) -> Option<IpAddr> {
    if let Some(address) = word_address(Family::Ipv6, word) {
        return Some(address);
    }
    first_ipv4(word)
}

/// The first address anywhere in a line, as in a line of a log, by where it begins. What is an address is said at
/// [`Sets::have_one`].
pub fn first_address(line: &[u8]) -> Option<IpAddr> {
    let mut rest = line;
    loop {
        let (word, behind) = rest.split_at(word_len(Family::Ipv6, rest));
        if let Some(address) = address_said(word) {
            return Some(address);
        }
        let Some((_, next)) = behind.split_first() else {
            return None;
        };
        rest = next;
    }
}
