//! Parsing the parts of address strings, in one pass over the bytes.

/// The value of a decimal digit, and of any other byte a number above 9.
#[inline]
pub(crate) fn decimal_value(byte: u8) -> u8 {
    byte.wrapping_sub(b'0')
}

/// How many digits come first, by what `decimal_value` returns of the second and the third byte. The first is a digit.
#[inline]
fn digit_count(second: u8, third: u8) -> usize {
    if second > 9 {
        1
    } else if third > 9 {
        2
    } else {
        3
    }
}

/// The octet of the first one, two or three digits. All three numbers are computed and then one is chosen, so that no
/// branch hangs on how many digits there are, which can't be foreseen.
#[inline]
fn octet_of(first: u8, second: u8, third: u8, count: usize) -> Option<u8> {
    let one = u32::from(first);
    let two = one * 10 + u32::from(second);
    let three = two * 10 + u32::from(third);
    let value = if count > 2 {
        three
    } else if count > 1 {
        two
    } else {
        one
    };
    if value > 255 || first == 0 && count > 1 {
        None
    } else {
        Some(value as u8)
    }
}

/// The octet at the front, of as many digits as can be one, and what follows it.
#[inline]
fn take_octet(text: &[u8]) -> Option<(u8, &[u8])> {
    let first = decimal_value(text[0]);
    let second = decimal_value(text[1]);
    let third = decimal_value(text[2]);
    if first > 9 {
        return None;
    }
    let count = digit_count(second, third);
    let octet = octet_of(first, second, third, count)?;
    Some((octet, &text[count..]))
}

/// What follows this byte at the front.
#[inline]
pub(crate) fn take_byte(text: &[u8], byte: u8) -> Option<&[u8]> {
    match text {
        [first, rest @ ..] if *first == byte => Some(rest),
        _ => None,
    }
}

/// The octet at the front, which a dot has to follow, and what follows the dot.
#[inline]
fn take_octet_and_dot(text: &[u8]) -> Option<(u8, &[u8])> {
    if text.len() < 3 {
        return None;
    }
    let (octet, rest) = take_octet(text)?;
    Some((octet, take_byte(rest, b'.')?))
}

/// The octet that is the whole string.
#[inline]
fn read_octet(text: &[u8]) -> Option<u8> {
    let count = text.len();
    if count == 0 || count > 3 {
        return None;
    }
    let first = decimal_value(text[0]);
    let second = decimal_value(text[count / 2]);
    let third = decimal_value(text[count - 1]);
    if first > 9 || second > 9 || third > 9 {
        return None;
    }
    octet_of(first, second, third, count)
}

/// The four octets of an IPv4 string.
#[inline]
pub(crate) fn read_ipv4(text: &[u8]) -> Option<[u8; 4]> {
    let (a, rest) = take_octet_and_dot(text)?;
    let (b, rest) = take_octet_and_dot(rest)?;
    let (c, rest) = take_octet_and_dot(rest)?;
    let d = read_octet(rest)?;
    Some([a, b, c, d])
}
