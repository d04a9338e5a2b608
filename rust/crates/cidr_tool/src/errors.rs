//! Why a run of the program gave no answer.

use cidr_support::arrayvec::ArrayString;
use cidr::AddrParseError;
use cidr::errors::NetworkParseError;
use cidr_io::sink::OutputFailed;
use core::fmt;

/// Why an argument was rejected.
#[derive(Debug, PartialEq)]
pub enum Fault {
    /// An argument is no network: the error of parsing it.
    Network(NetworkParseError),
    /// An argument is no address: the error of parsing it.
    Address(AddrParseError),
}

impl Fault {
    /// The words of what it holds.
    #[inline]
    pub fn to_text(&self) -> ArrayString<99> {
        let mut text = ArrayString::new();
        match self {
            Fault::Network(e) => text.push_str(e.to_text().as_str()),
            Fault::Address(e) => text.push_str(e.to_text().as_str()),
        }
        text
    }
}

impl fmt::Display for Fault {
    #[inline]
    fn fmt(&self, f: &mut fmt::Formatter<'_>) -> fmt::Result {
        f.write_str(self.to_text().as_str())
    }
}

/// Why `run` gave no answer.
#[derive(Debug, PartialEq)]
pub enum ToolError {
    /// An argument was rejected; nothing was written.
    Refused(Fault),
    /// The arguments are no command of the program; nothing was written.
    Usage,
    /// The output has failed; a beginning of the answer was written.
    Output,
}

impl From<NetworkParseError> for ToolError {
    #[inline]
    fn from(e: NetworkParseError) -> ToolError {
        ToolError::Refused(Fault::Network(e))
    }
}

impl From<AddrParseError> for ToolError {
    #[inline]
    fn from(e: AddrParseError) -> ToolError {
        ToolError::Refused(Fault::Address(e))
    }
}

impl From<OutputFailed> for ToolError {
    #[inline]
    fn from(_error: OutputFailed) -> ToolError {
        ToolError::Output
    }
}
