//! Reading lines, as slices of the blocks that are read.

use cidr_support::vec::Vec;
use crate::memory::Memory;
use crate::source::Source;
use cidr_support::alloc::AllocError;

/// How many bytes a source is asked for at once.
const CHUNK: usize = 65536;

/// The most bytes of a line, without its line feed: 1 MiB.
pub const MOST_BYTES: usize = 1_048_576;

/// How many bytes are kept of a longer line: so many that it is seen to be too long.
const KEPT: usize = MOST_BYTES + 1;

/// Why a line is not read.
#[derive(Clone, Copy, Debug, PartialEq)]
pub enum LineReadError {
    /// A read of the source has failed.
    Failed,
    /// An allocation was refused.
    NoMemory,
}

impl From<AllocError> for LineReadError {
    #[inline]
    fn from(_error: AllocError) -> LineReadError {
        LineReadError::NoMemory
    }
}

/// Where the first line feed of a text stands.
#[inline]
pub fn feed_in(text: &[u8]) -> Option<usize> {
    text.iter().position(|byte| *byte == b'\n')
}

/// Whether a line has more than [`MOST_BYTES`] bytes. Of such a line a [`LineReader`] has the first ones alone.
#[inline]
pub fn is_too_long(line: &[u8]) -> bool {
    line.len() > MOST_BYTES
}

/// Drops bytes in front of the others.
#[inline]
fn drop_front(block: &mut Vec<u8>, count: usize) {
    let len = block.len();
    block.as_mut_slice().copy_within(count..len, 0);
    block.truncate(len - count);
}

/// Reads bytes of a source behind those of a block, by way of a chunk; false at its end.
fn read_more<M: Memory, S: Source>(
    memory: &mut M,
    source: &mut S,
    chunk: &mut [u8],
    block: &mut Vec<u8>,
) -> Result<bool, LineReadError> {
    let Some(count) = source.read_some(chunk) else {
        return Err(LineReadError::Failed);
    };
    memory.reserve(block, count)?;
    let Ok(()) = block.extend_from_slice(&chunk[..count]) else {
        unreachable!()
    };
    Ok(count > 0)
}

/// Reads bytes of a source behind those of a block, until there is a line feed or to its end, and tells where the first
/// line feed stands. Of bytes without one no more stay in the block than are kept of a line, and a chunk.
fn fill_line<M: Memory, S: Source>(
    memory: &mut M,
    source: &mut S,
    chunk: &mut [u8],
    block: &mut Vec<u8>,
) -> Result<Option<usize>, LineReadError> {
    let mut seen = 0;
    for _reads in 0..u64::MAX {
        if let Some(index) = feed_in(&block[seen..]) {
            return Ok(Some(seen + index));
        }
        block.truncate(KEPT);
        seen = block.len();
        let has_more = read_more(memory, source, chunk, block)?;
        if !has_more {
            return Ok(None);
        }
    }
    Err(LineReadError::Failed)
}

/// How many bytes are kept of a line of so many.
#[inline]
fn kept(len: usize) -> usize {
    if len < KEPT { len } else { KEPT }
}

/// Where the next line of a block begins, and its length if a line feed is behind it: where none is known to be, more is
/// read, and what is in front of the line is dropped. `next` is where the line begins, and `ahead` its length, if that is
/// known.
#[inline]
fn find_line<M: Memory, S: Source>(
    memory: &mut M,
    source: &mut S,
    chunk: &mut [u8],
    block: &mut Vec<u8>,
    next: usize,
    ahead: Option<usize>,
) -> Result<(usize, Option<usize>), LineReadError> {
    if let Some(len) = ahead {
        return Ok((next, Some(len)));
    }
    drop_front(block, next);
    let found = fill_line(memory, source, chunk, block)?;
    Ok((0, found))
}

/// A chunk of zeros.
#[inline]
fn new_chunk<M: Memory>(memory: &mut M) -> Result<Vec<u8>, AllocError> {
    let mut chunk = Vec::new(memory.alloc());
    memory.reserve(&mut chunk, CHUNK)?;
    let Ok(()) = chunk.resize(CHUNK, 0) else {
        unreachable!()
    };
    Ok(chunk)
}

/// The bytes of a source, to its end, in memory that grows with them; it is read by 64 KiB at once. The error is the
/// first: `Failed` where a read of the source fails, or `NoMemory`, which `memory` remembers. What was read before it
/// is lost.
pub fn read_to_end<M: Memory, S: Source>(
    memory: &mut M,
    source: S,
) -> Result<Vec<u8>, LineReadError> {
    let mut source = source;
    let mut chunk = new_chunk(memory)?;
    let mut block = Vec::new(memory.alloc());
    loop {
        let has_more = read_more(memory, &mut source, chunk.as_mut_slice(), &mut block)?;
        if !has_more {
            return Ok(block);
        }
    }
}

/// Reads lines from a source.
///
/// A line is a slice of the block that was read, and is copied only where it goes on behind it. It stays until the next
/// one is read. Of a line of more than [`MOST_BYTES`] bytes the first ones are kept, one more than that, and the rest is
/// passed over, so that the memory does not grow with it: [`is_too_long`] tells such a line. The source is read by 64
/// KiB at once, and a line and two such parts are kept at most.
pub struct LineReader<S: Source> {
    source: S,
    chunk: Vec<u8>,
    block: Vec<u8>,
    start: usize,
    stop: usize,
    next: usize,
    ahead: Option<usize>,
}

impl<S: Source> LineReader<S> {
    /// A reader of a source, of which nothing is read yet: it is at no line. The error is `NoMemory`, for the room of
    /// 64 KiB.
    pub fn new<M: Memory>(memory: &mut M, source: S) -> Result<LineReader<S>, LineReadError> {
        let chunk = new_chunk(memory)?;
        let block = Vec::new(memory.alloc());
        Ok(LineReader {
            source,
            chunk,
            block,
            start: 0,
            stop: 0,
            next: 0,
            ahead: None,
        })
    }

    /// Reads the next line, without its line feed, and tells whether it ends in one, so that another line is behind it:
    /// behind the last line feed too, where that line may be empty. Behind the last line are only empty ones.
    ///
    /// It takes time in the length of the line, also of one that is too long. The errors are `Failed` where a read of
    /// the source fails, and `NoMemory`, which `memory` remembers. After an error the reader is at no line, and what it
    /// reads next is not told.
    pub fn read_line<M: Memory>(&mut self, memory: &mut M) -> Result<bool, LineReadError> {
        let (next, ahead) = (self.next, self.ahead);
        self.start = 0;
        self.stop = 0;
        self.next = 0;
        self.ahead = None;
        let (start, found) = find_line(
            memory,
            &mut self.source,
            self.chunk.as_mut_slice(),
            &mut self.block,
            next,
            ahead,
        )?;
        self.start = start;
        let Some(len) = found else {
            let end = self.block.len();
            let last = kept(end - start);
            self.stop = start + last;
            self.next = end;
            return Ok(false);
        };
        let line = kept(len);
        self.stop = start + line;
        self.next = start + len + 1;
        self.ahead = feed_in(&self.block[self.next..]);
        Ok(true)
    }

    /// The line that was read last, without its line feed; of one that is too long its first 1,048,577 bytes.
    #[inline]
    pub fn line(&self) -> &[u8] {
        &self.block[self.start..self.stop]
    }

    /// Whether a whole line is read already behind this one, so that nothing is read for it: then a line feed is left. No
    /// contract says when it is so: what is made of lines has to be the same either way.
    #[inline]
    pub fn has_line(&self) -> bool {
        self.ahead.is_some()
    }
}
