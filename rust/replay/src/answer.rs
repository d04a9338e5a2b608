//! The answer to a line, token by token.

use crate::line_error::Outcome;
use crate::refusals::Refusal;
use crate::values::Value;
use std::fmt::{Debug, Display, Write};

/// An answer line that is being written.
#[derive(Default)]
pub struct Answer {
    line: String,
}

impl Answer {
    /// The line as it stands.
    pub fn into_line(self) -> String {
        self.line
    }

    /// Appends a word as a token.
    pub fn word(&mut self, word: &str) -> Outcome {
        self.display(&word)
    }

    /// Appends a token, the text that `Display` prints.
    pub fn display<D: Display>(&mut self, value: &D) -> Outcome {
        self.begin_token();
        self.more(value)
    }

    /// Appends what `Debug` prints, with its spaces.
    pub fn shown<D: Debug>(&mut self, value: &D) -> Outcome {
        self.display(&format_args!("{value:?}"))
    }

    /// Appends to the last token.
    pub fn more<D: Display>(&mut self, value: &D) -> Outcome {
        Ok(write!(self.line, "{value}")?)
    }

    /// Appends a token or tokens as they stand for the value.
    pub fn value<V: Value>(&mut self, value: &V) -> Outcome {
        value.push_to(self)
    }

    /// Appends bytes: `x`, and two hexadecimal digits for each.
    pub fn bytes(&mut self, bytes: &[u8]) -> Outcome {
        self.begin_token();
        self.line.push('x');
        for byte in bytes {
            write!(self.line, "{byte:02x}")?;
        }
        Ok(())
    }

    /// Appends a text, what `Display` prints: `=`, and the text with its blanks and the like escaped.
    pub fn text<D: Display>(&mut self, value: &D) -> Outcome {
        self.begin_token();
        self.line.push('=');
        for byte in value.to_string().bytes() {
            if byte != b'%' && byte.is_ascii_graphic() {
                self.line.push(char::from(byte));
            } else {
                write!(self.line, "%{byte:02X}")?;
            }
        }
        Ok(())
    }

    /// Appends a refusal: its kind, and its words as a text.
    pub fn refusal<R: Refusal>(&mut self, refusal: &R) -> Outcome {
        self.word(refusal.kind())?;
        self.text(refusal)
    }

    /// Appends the space that stands before each token but the first.
    fn begin_token(&mut self) {
        if !self.line.is_empty() {
            self.line.push(' ');
        }
    }
}
