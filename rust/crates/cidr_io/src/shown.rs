//! Strings from outside in messages: with no control or hidden character, and short.

use cidr_support::arrayvec::ArrayString;

/// The most bytes of an excerpt, but for the two dots behind it.
const MOST: usize = 40;

/// A part of a message.
#[derive(Clone, Copy)]
pub enum MessagePart<'a> {
    /// The program's own words.
    Plain(&'a str),
    /// A string from outside, which is shown in whole: a control character as `\x` and its code, a hidden one as `\u` and its code.
    Shown(&'a str),
}

/// The hexadecimal digit, in lower case. The caller has to ensure that it is below 16.
#[inline]
pub fn hex_digit(digit: u8) -> char {
    assert!(digit < 16);
    char::from_digit(u32::from(digit), 16).unwrap()
}

/// `\x` and two hexadecimal digits.
#[inline]
fn escape(code: u8) -> ArrayString<4> {
    let mut text = ArrayString::new();
    text.push('\\');
    text.push('x');
    text.push(hex_digit(code / 16));
    text.push(hex_digit(code % 16));
    text
}

/// `\u` and four hexadecimal digits.
fn wide_escape(code: u16) -> ArrayString<6> {
    let mut text = ArrayString::new();
    text.push('\\');
    text.push('u');
    text.push(hex_digit((code / 4096) as u8));
    text.push(hex_digit((code / 256 % 16) as u8));
    text.push(hex_digit((code / 16 % 16) as u8));
    text.push(hex_digit((code % 16) as u8));
    text
}

/// Whether a character is not seen, parts lines or turns the direction of writing: U+200B to U+200F, U+2028 to U+202E,
/// U+2060 to U+206F, and the byte order mark, U+FEFF.
#[inline]
fn is_hidden(c: char) -> bool {
    let code = c as u32;
    (code >= 0x200b && code <= 0x200f)
        || (code >= 0x2028 && code <= 0x202e)
        || (code >= 0x2060 && code <= 0x206f)
        || code == 0xfeff
}

/// A character as it is shown: a control character, of ASCII or C1 (Unicode's class Cc), as `\x` and two hexadecimal
/// digits; one that is not seen, parts lines or turns the direction of writing as `\u` and four; and any other as it is.
pub fn shown_char(c: char) -> ArrayString<6> {
    let mut text = ArrayString::new();
    if c.is_control() {
        text.push_str(escape(c as u8).as_str());
        return text;
    }
    if is_hidden(c) {
        return wide_escape(c as u16);
    }
    text.push(c);
    text
}

/// A byte of a string that is not UTF-8 as it is shown.
#[inline]
fn shown_byte(byte: u8) -> ArrayString<4> {
    if byte < 32 || byte > 126 {
        return escape(byte);
    }
    let mut text = ArrayString::new();
    text.push(char::from(byte));
    text
}

/// Appends a part if it fits, and else two dots; tells whether it does.
#[inline]
fn append_within(text: &mut ArrayString<42>, part: &str) -> bool {
    let fits = part.len() <= MOST - text.len();
    text.push_str(if fits { part } else { ".." });
    fits
}

/// The beginning of a string.
#[inline]
fn cut_text(text: &str) -> ArrayString<42> {
    let mut short = ArrayString::new();
    for c in text.chars() {
        if !append_within(&mut short, shown_char(c).as_str()) {
            return short;
        }
    }
    short
}

/// The beginning of a string that is not UTF-8.
#[inline]
fn cut_bytes(bytes: &[u8]) -> ArrayString<42> {
    let mut short = ArrayString::new();
    for byte in bytes {
        if !append_within(&mut short, shown_byte(*byte).as_str()) {
            return short;
        }
    }
    short
}

/// A string in at most 40 bytes and two dots where it goes on, in which a control character is `\x` and its code in two
/// hexadecimal digits, and one that is not seen, parts lines or turns the direction of writing `\u` and four: so that it
/// neither ends the line of a message nor writes one of its own.
#[inline]
pub fn excerpt(text: &str) -> ArrayString<42> {
    cut_text(text)
}

/// What `excerpt` shows, of a string that is not UTF-8: each byte outside of 32 to 126 is `\x` and two hexadecimal
/// digits, as `\xff`.
#[inline]
pub fn byte_excerpt(bytes: &[u8]) -> ArrayString<42> {
    cut_bytes(bytes)
}
