//! A string whose calls return an error where memory runs out, for tests and programs. It is the `String` of `alloc`
//! inside.

use crate::alloc::{AllocError, Global};
use crate::vec::Vec;
use core::fmt;
use core::ops::Deref;
use rust_alloc::string;

/// A string.
#[derive(PartialEq, Eq, PartialOrd, Ord, Hash)]
pub struct String(string::String);

impl String {
    /// The empty string.
    ///
    /// ```
    /// # use cidr_support::{alloc::*, string::String, vec::Vec};
    /// assert_eq!(String::new(Global).as_str(), "");
    /// # Ok::<(), AllocError>(())
    /// ```
    pub fn new(_: Global) -> String {
        String(string::String::new())
    }

    /// A copy of a string.
    ///
    /// ```
    /// # use cidr_support::{alloc::*, string::String, vec::Vec};
    /// assert_eq!(String::from_str(Global, "::1")?.as_str(), "::1");
    /// # Ok::<(), AllocError>(())
    /// ```
    ///
    /// # Errors
    ///
    /// `AllocError` where memory runs out.
    pub fn from_str(alloc: Global, text: &str) -> Result<String, AllocError> {
        let mut copy = String::new(alloc);
        copy.push_str(text)?;
        Ok(copy)
    }

    /// The string of these bytes, if they are UTF-8.
    ///
    /// ```
    /// # use cidr_support::{alloc::*, string::String, vec::Vec};
    /// let bytes = Vec::from_slice(Global, b"::1")?;
    /// assert_eq!(String::from_utf8(bytes).unwrap().as_str(), "::1");
    /// assert!(String::from_utf8(Vec::from_array(Global, [255])?).is_err());
    /// # Ok::<(), AllocError>(())
    /// ```
    ///
    /// # Errors
    ///
    /// `string::FromUtf8Error`, which tells what is wrong.
    pub fn from_utf8(bytes: Vec<u8>) -> Result<String, string::FromUtf8Error> {
        string::String::from_utf8(bytes.into()).map(String)
    }

    /// Appends a string.
    ///
    /// ```
    /// # use cidr_support::{alloc::*, string::String, vec::Vec};
    /// let mut text = String::from_str(Global, "192.")?;
    /// text.push_str("0")?;
    /// assert_eq!(text.as_str(), "192.0");
    /// # Ok::<(), AllocError>(())
    /// ```
    ///
    /// # Errors
    ///
    /// `AllocError` where memory runs out.
    pub fn push_str(&mut self, text: &str) -> Result<(), AllocError> {
        self.0.try_reserve(text.len()).map_err(|_| AllocError)?;
        self.0.push_str(text);
        Ok(())
    }

    /// Appends a character.
    ///
    /// ```
    /// # use cidr_support::{alloc::*, string::String, vec::Vec};
    /// let mut text = String::new(Global);
    /// text.push('/')?;
    /// text.push('8')?;
    /// assert_eq!(format!("{text:>3}"), " /8");
    /// # Ok::<(), AllocError>(())
    /// ```
    ///
    /// # Errors
    ///
    /// `AllocError` where memory runs out.
    pub fn push(&mut self, c: char) -> Result<(), AllocError> {
        self.push_str(c.encode_utf8(&mut [0; 4]))
    }

    /// What `write!` calls.
    ///
    /// ```
    /// # use cidr_support::{alloc::*, string::String, vec::Vec};
    /// let mut text = String::from_str(Global, "::")?;
    /// write!(text, "/{}", 8)?;
    /// assert_eq!(text.as_str(), "::/8");
    /// # Ok::<(), AllocError>(())
    /// ```
    ///
    /// # Errors
    ///
    /// `AllocError` where memory runs out.
    pub fn write_fmt(&mut self, args: fmt::Arguments<'_>) -> Result<(), AllocError> {
        fmt::write(self, args).map_err(|_| AllocError)
    }

    /// The string.
    ///
    /// ```
    /// # use cidr_support::{alloc::*, string::String, vec::Vec};
    /// assert_eq!(String::from_str(Global, "::1")?.as_str(), "::1");
    /// # Ok::<(), AllocError>(())
    /// ```
    pub fn as_str(&self) -> &str {
        &self.0
    }

    /// Leaves nothing.
    ///
    /// ```
    /// # use cidr_support::{alloc::*, string::String, vec::Vec};
    /// let mut text = String::from_str(Global, "::1")?;
    /// text.clear();
    /// assert_eq!(text.as_str(), "");
    /// # Ok::<(), AllocError>(())
    /// ```
    pub fn clear(&mut self) {
        self.0.clear();
    }
}

impl fmt::Write for String {
    fn write_str(&mut self, text: &str) -> fmt::Result {
        self.push_str(text).map_err(|_| fmt::Error)
    }
}

impl Deref for String {
    type Target = str;

    fn deref(&self) -> &str {
        &self.0
    }
}

impl fmt::Display for String {
    fn fmt(&self, f: &mut fmt::Formatter<'_>) -> fmt::Result {
        self.0.fmt(f)
    }
}

/// `format!` into a string of an allocator.
#[macro_export]
macro_rules! format {
    (in $alloc:expr; $($t:tt)*) => {{
        let mut text = $crate::string::String::new($alloc);
        text.write_fmt(core::format_args!($($t)*)).map(|()| text)
    }};
}
