//! Files that begin with a header, whose first line says nothing.

use crate::commands::matching::has;
use crate::errors::Reason;
use crate::input::files::Files;
use cidr_io::lines::feed_in;
use cidr_io::source::Source;

/// How many bytes stand before the first line feed.
#[inline]
fn len_to_feed(bytes: &[u8]) -> usize {
    feed_in(bytes).unwrap_or(bytes.len())
}

/// Makes spaces of the bytes before the first line feed, or of all, and tells whether there is none.
#[inline]
fn blank(bytes: &mut [u8]) -> bool {
    let end = len_to_feed(bytes);
    bytes[..end].fill(b' ');
    end == bytes.len()
}

/// A source whose first line, as far as it was not read yet, is given as spaces.
pub struct HeadedReader<S: Source> {
    source: S,
    in_header: bool,
}

impl<S: Source> Source for HeadedReader<S> {
    #[inline]
    fn read_some(&mut self, buf: &mut [u8]) -> Option<usize> {
        let count = self.source.read_some(buf)?;
        if self.in_header {
            self.in_header = blank(&mut buf[..count]);
        }
        Some(count)
    }
}

/// Files, of which those of these names begin with a header.
#[derive(Clone, Copy)]
pub struct Headed<'f, F: Files> {
    pub files: &'f F,
    pub tables: &'f [&'f str],
}

impl<F: Files> Files for Headed<'_, F> {
    type Reader = HeadedReader<F::Reader>;

    #[inline]
    fn open(&self, name: &str) -> Result<Self::Reader, Reason> {
        let source = self.files.open(name)?;
        Ok(HeadedReader {
            source,
            in_header: has(self.tables, name),
        })
    }
}
