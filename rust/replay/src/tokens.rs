//! The tokens of a line, and the values that they write.

use crate::line_error::LineError;
use std::str::FromStr;

mod escapes;

use escapes::{bytes_of, unescaped};

/// The type that an operation names.
#[derive(Clone, Copy, PartialEq, Eq)]
pub enum Kind {
    V4,
    V6,
    Ip,
    Any,
}

/// The tokens that are left of a line; one space stands between two of them.
pub struct Tokens<'a> {
    rest: Option<&'a str>,
}

impl<'a> Tokens<'a> {
    /// All tokens of a line.
    pub fn new(line: &'a str) -> Tokens<'a> {
        Tokens { rest: Some(line) }
    }

    /// Whether no token is left.
    pub fn is_empty(&self) -> bool {
        self.rest.is_none()
    }

    /// Leaves out the tokens that are left.
    pub fn skip_all(&mut self) {
        self.rest = None;
    }

    /// The next token as it stands.
    pub fn word(&mut self) -> Result<&'a str, LineError> {
        let Some(rest) = self.rest else {
            return Err(LineError::Malformed);
        };
        match rest.split_once(' ') {
            Some((word, others)) => {
                self.rest = Some(others);
                Ok(word)
            }
            None => {
                self.rest = None;
                Ok(rest)
            }
        }
    }

    /// A type.
    pub fn kind(&mut self) -> Result<Kind, LineError> {
        match self.word()? {
            "v4" => Ok(Kind::V4),
            "v6" => Ok(Kind::V6),
            "ip" => Ok(Kind::Ip),
            "any" => Ok(Kind::Any),
            _ => Err(LineError::Malformed),
        }
    }

    /// An address, a network or a host, read by its own `FromStr`.
    pub fn value<V: FromStr>(&mut self) -> Result<V, LineError> {
        parsed(self.word()?)
    }

    /// A value, or `none`.
    pub fn option<V: FromStr>(&mut self) -> Result<Option<V>, LineError> {
        match self.word()? {
            "none" => Ok(None),
            word => Ok(Some(parsed(word)?)),
        }
    }

    /// A decimal number without a sign or leading zeros.
    pub fn number<N: FromStr>(&mut self) -> Result<N, LineError> {
        let word = self.word()?;
        if word != "0" && (word.starts_with('0') || word.starts_with('+')) {
            return Err(LineError::Malformed);
        }
        parsed(word)
    }

    /// A truth value.
    pub fn truth(&mut self) -> Result<bool, LineError> {
        match self.word()? {
            "true" => Ok(true),
            "false" => Ok(false),
            _ => Err(LineError::Malformed),
        }
    }

    /// Eight groups of an IPv6 address, in decimal.
    pub fn groups(&mut self) -> Result<[u16; 8], LineError> {
        let mut groups = [0u16; 8];
        for group in groups.iter_mut() {
            *group = self.number()?;
        }
        Ok(groups)
    }

    /// A text behind `=`, in which `%` and two upper-case hexadecimal digits stand for a byte.
    pub fn text(&mut self) -> Result<String, LineError> {
        match self.word()?.strip_prefix('=') {
            Some(escaped) => unescaped(escaped),
            None => Err(LineError::Malformed),
        }
    }

    /// As many octets as the type has.
    pub fn octets<const N: usize>(&mut self) -> Result<[u8; N], LineError> {
        match <[u8; N]>::try_from(self.bytes()?.as_slice()) {
            Ok(octets) => Ok(octets),
            Err(_) => Err(LineError::Malformed),
        }
    }

    /// Bytes behind `x`, two lower-case hexadecimal digits each.
    pub fn bytes(&mut self) -> Result<Vec<u8>, LineError> {
        match self.word()?.strip_prefix('x') {
            Some(digits) => bytes_of(digits.as_bytes()),
            None => Err(LineError::Malformed),
        }
    }
}

/// The value that a word is parsed as.
pub fn parsed<V: FromStr>(word: &str) -> Result<V, LineError> {
    match word.parse::<V>() {
        Ok(value) => Ok(value),
        Err(_) => Err(LineError::Malformed),
    }
}
