//! Hexadecimal digits and their values.

/// What the table has for a byte that is no hexadecimal digit: a number above all that four digits write.
const NO: u32 = 0x1_0000;

/// The value of each byte as a hexadecimal digit. A table has no branch to mispredict.
static DIGIT_VALUES: [u32; 256] = [
    NO, NO, NO, NO, NO, NO, NO, NO, NO, NO, NO, NO, NO, NO, NO, NO, NO, NO, NO, NO, NO, NO, NO, NO,
    NO, NO, NO, NO, NO, NO, NO, NO, NO, NO, NO, NO, NO, NO, NO, NO, NO, NO, NO, NO, NO, NO, NO, NO,
    0, 1, 2, 3, 4, 5, 6, 7, 8, 9, NO, NO, NO, NO, NO, NO, NO, 10, 11, 12, 13, 14, 15, NO, NO, NO,
    NO, NO, NO, NO, NO, NO, NO, NO, NO, NO, NO, NO, NO, NO, NO, NO, NO, NO, NO, NO, NO, NO, NO, 10,
    11, 12, 13, 14, 15, NO, NO, NO, NO, NO, NO, NO, NO, NO, NO, NO, NO, NO, NO, NO, NO, NO, NO, NO,
    NO, NO, NO, NO, NO, NO, NO, NO, NO, NO, NO, NO, NO, NO, NO, NO, NO, NO, NO, NO, NO, NO, NO, NO,
    NO, NO, NO, NO, NO, NO, NO, NO, NO, NO, NO, NO, NO, NO, NO, NO, NO, NO, NO, NO, NO, NO, NO, NO,
    NO, NO, NO, NO, NO, NO, NO, NO, NO, NO, NO, NO, NO, NO, NO, NO, NO, NO, NO, NO, NO, NO, NO, NO,
    NO, NO, NO, NO, NO, NO, NO, NO, NO, NO, NO, NO, NO, NO, NO, NO, NO, NO, NO, NO, NO, NO, NO, NO,
    NO, NO, NO, NO, NO, NO, NO, NO, NO, NO, NO, NO, NO, NO, NO, NO, NO, NO, NO, NO, NO, NO, NO, NO,
    NO, NO, NO, NO, NO, NO, NO, NO, NO, NO, NO, NO, NO, NO,
];

/// The value of the hexadecimal digit, which may be of either case, or `NO`.
#[inline]
fn digit_or_no(byte: u8) -> u32 {
    DIGIT_VALUES[usize::from(byte)]
}

/// The value of the hexadecimal digit, which may be of either case.
#[inline]
pub(crate) fn hex_value(byte: u8) -> Option<u32> {
    let value = digit_or_no(byte);
    if value < 16 { Some(value) } else { None }
}

/// The number that four hexadecimal digits write. One test is enough for all four: where one of the bytes is no digit,
/// the number is too large.
#[inline]
pub(crate) fn hex_number(a: u8, b: u8, c: u8, d: u8) -> Option<u16> {
    let front = digit_or_no(a) * 16 + digit_or_no(b);
    let number = (front * 16 + digit_or_no(c)) * 16 + digit_or_no(d);
    if number < NO {
        Some(number as u16)
    } else {
        None
    }
}

/// The two digits of each byte, in lower case.
const PAIRS: &str = "\
    000102030405060708090a0b0c0d0e0f101112131415161718191a1b1c1d1e1f\
    202122232425262728292a2b2c2d2e2f303132333435363738393a3b3c3d3e3f\
    404142434445464748494a4b4c4d4e4f505152535455565758595a5b5c5d5e5f\
    606162636465666768696a6b6c6d6e6f707172737475767778797a7b7c7d7e7f\
    808182838485868788898a8b8c8d8e8f909192939495969798999a9b9c9d9e9f\
    a0a1a2a3a4a5a6a7a8a9aaabacadaeafb0b1b2b3b4b5b6b7b8b9babbbcbdbebf\
    c0c1c2c3c4c5c6c7c8c9cacbcccdcecfd0d1d2d3d4d5d6d7d8d9dadbdcdddedf\
    e0e1e2e3e4e5e6e7e8e9eaebecedeeeff0f1f2f3f4f5f6f7f8f9fafbfcfdfeff";

/// The two hexadecimal digits of the byte, in lower case.
#[inline(always)]
pub(crate) fn hex_pair(byte: u8) -> &'static str {
    let start = usize::from(byte) * 2;
    &PAIRS[start..start + 2]
}

/// The hexadecimal digit, in lower case.
#[inline(always)]
pub(crate) fn hex_digit(digit: u8) -> &'static str {
    let start = usize::from(digit) * 2 + 1;
    &PAIRS[start..start + 1]
}
