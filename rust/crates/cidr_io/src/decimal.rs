//! Numbers in decimal.

use cidr_support::arrayvec::ArrayString;

/// The most digits of a number of 128 bits.
const MOST: usize = 39;

/// The numbers below 100, each by two digits.
const PAIRS: &str = "\
    00010203040506070809101112131415161718192021222324\
    25262728293031323334353637383940414243444546474849\
    50515253545556575859606162636465666768697071727374\
    75767778798081828384858687888990919293949596979899";

/// The digit of a number below 10.
#[inline(always)]
fn digit(number: u8) -> &'static str {
    let start = usize::from(number) * 2 + 1;
    &PAIRS[start..start + 1]
}

/// The two digits of a number below 100.
#[inline(always)]
fn pair(number: u8) -> &'static str {
    let start = usize::from(number) * 2;
    &PAIRS[start..start + 2]
}

/// Appends a number of 64 bits.
fn push_digits(text: &mut ArrayString<MOST>, number: u64) {
    if number < 10 {
        text.push_str(digit(number as u8));
    } else if number < 100 {
        text.push_str(pair(number as u8));
    } else {
        push_digits(text, number / 100);
        text.push_str(pair((number % 100) as u8));
    }
}

/// Appends a number: its last digits two by two, and what is left of it as one of 64 bits.
#[inline]
fn push_number(text: &mut ArrayString<MOST>, number: u128) {
    match u64::try_from(number) {
        Ok(small) => push_digits(text, small),
        Err(_) => {
            push_number(text, number / 100);
            text.push_str(pair((number % 100) as u8));
        }
    }
}

/// A number in decimal, without leading zeros, in at most 39 digits.
#[inline]
pub fn decimal_text(number: u128) -> ArrayString<MOST> {
    let mut text = ArrayString::new();
    push_number(&mut text, number);
    text
}

/// A count of addresses in decimal: none is 2^128, for which a `u128` has no room.
pub fn count_text(count: Option<u128>) -> ArrayString<MOST> {
    match count {
        Some(count) => decimal_text(count),
        None => {
            let mut text = ArrayString::new();
            text.push_str("340282366920938463463374607431768211456");
            text
        }
    }
}
