//! The strings of IPv6 masks, which depend on the prefix length alone: most of them are parts of those that are written here.

/// The masks of the prefix lengths from 113 on, with `::` behind each. What stands there from a group on is the mask of a
/// prefix length up to 96.
const MASKS: &str = "\
    ffff:ffff:ffff:ffff:ffff:ffff:ffff:8000::\
    ffff:ffff:ffff:ffff:ffff:ffff:ffff:c000::\
    ffff:ffff:ffff:ffff:ffff:ffff:ffff:e000::\
    ffff:ffff:ffff:ffff:ffff:ffff:ffff:f000::\
    ffff:ffff:ffff:ffff:ffff:ffff:ffff:f800::\
    ffff:ffff:ffff:ffff:ffff:ffff:ffff:fc00::\
    ffff:ffff:ffff:ffff:ffff:ffff:ffff:fe00::\
    ffff:ffff:ffff:ffff:ffff:ffff:ffff:ff00::\
    ffff:ffff:ffff:ffff:ffff:ffff:ffff:ff80::\
    ffff:ffff:ffff:ffff:ffff:ffff:ffff:ffc0::\
    ffff:ffff:ffff:ffff:ffff:ffff:ffff:ffe0::\
    ffff:ffff:ffff:ffff:ffff:ffff:ffff:fff0::\
    ffff:ffff:ffff:ffff:ffff:ffff:ffff:fff8::\
    ffff:ffff:ffff:ffff:ffff:ffff:ffff:fffc::\
    ffff:ffff:ffff:ffff:ffff:ffff:ffff:fffe::\
    ffff:ffff:ffff:ffff:ffff:ffff:ffff:ffff::";

/// The host masks of the prefix lengths from 32 to 47, with blanks behind each up to 31 bytes. What stands there up to a group is
/// the host mask of a longer prefix length.
const HOST_MASKS: &str = "\
    ::ffff:ffff:ffff:ffff:ffff:ffff\
    ::7fff:ffff:ffff:ffff:ffff:ffff\
    ::3fff:ffff:ffff:ffff:ffff:ffff\
    ::1fff:ffff:ffff:ffff:ffff:ffff\
    ::fff:ffff:ffff:ffff:ffff:ffff \
    ::7ff:ffff:ffff:ffff:ffff:ffff \
    ::3ff:ffff:ffff:ffff:ffff:ffff \
    ::1ff:ffff:ffff:ffff:ffff:ffff \
    ::ff:ffff:ffff:ffff:ffff:ffff  \
    ::7f:ffff:ffff:ffff:ffff:ffff  \
    ::3f:ffff:ffff:ffff:ffff:ffff  \
    ::1f:ffff:ffff:ffff:ffff:ffff  \
    ::f:ffff:ffff:ffff:ffff:ffff   \
    ::7:ffff:ffff:ffff:ffff:ffff   \
    ::3:ffff:ffff:ffff:ffff:ffff   \
    ::1:ffff:ffff:ffff:ffff:ffff   ";

/// The mask of a prefix length as it is printed, or `None` from 97 to 112, where a single group of zeros is left.
#[inline(always)]
pub fn ipv6_mask_text(len: u8) -> Option<&'static str> {
    let len = usize::from(len);
    if len == 0 {
        return Some("::");
    }
    let row = (len - 1) % 16 * 41;
    let groups = (len - 1) / 16;
    if groups == 6 {
        return None;
    }
    // nothing is left out behind eight groups
    Some(&MASKS[row + (7 - groups) * 5..row + 41 - groups / 7 * 2])
}

/// The host mask of a prefix length as it is printed, or `None` below 32, where it doesn't begin with two groups of zeros, and
/// for 80, where it is an IPv4-mapped address.
#[inline(always)]
pub fn ipv6_host_mask_text(len: u8) -> Option<&'static str> {
    let len = usize::from(len);
    if len < 32 || len == 80 {
        return None;
    }
    if len == 128 {
        return Some("::");
    }
    let row = len % 16 * 31;
    let digits = 4 - len % 16 / 4;
    Some(&HOST_MASKS[row..row + 2 + digits + (7 - len / 16) * 5])
}
