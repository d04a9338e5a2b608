//! An answer that is held in memory.

use cidr_support::vec::Vec;
use cidr_io::sink::{Output, Sink, Tracked};
use cidr_support::alloc::{AllocError, Global};

/// What was written so far. A write fails where there is no memory for it: that is not told as an output that failed, but
/// by `finish`.
pub struct Held {
    text: Tracked<Vec<u8>>,
}

impl Held {
    /// Nothing was written yet.
    #[inline]
    pub fn new(alloc: Global) -> Self {
        Held {
            text: Tracked::new(Vec::new(alloc)),
        }
    }

    /// All that was written, if there was memory for it.
    #[inline]
    pub fn finish(self) -> Result<Vec<u8>, AllocError> {
        let Held { text } = self;
        if text.failed() {
            return Err(AllocError);
        }
        Ok(text.into_inner())
    }
}

impl Sink for Held {
    #[inline]
    fn write(&mut self, bytes: &[u8]) -> Option<usize> {
        self.text.write(bytes)
    }

    #[inline]
    fn flush(&mut self) -> bool {
        self.text.flush()
    }

    #[inline]
    fn failed(&self) -> bool {
        self.text.failed()
    }
}

impl Output for Held {
    #[inline]
    fn is_closed(&self) -> bool {
        self.failed()
    }
}
