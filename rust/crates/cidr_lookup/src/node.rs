//! The words of a node.

use crate::words::{Sink, Stop};

/// How many parts a node has.
pub(crate) const PARTS: usize = 64;

/// The runs of the first parts of a node.
pub(crate) struct Runs {
    /// A mark for each part, the first the highest bit: whether it begins a run.
    pub(crate) marks: u64,
    /// The entry of each run, and behind them zeros.
    pub(crate) entries: [u32; PARTS],
    /// How many runs there are.
    pub(crate) count: usize,
}

impl Runs {
    /// Those of no part.
    #[inline(always)]
    pub(crate) fn new() -> Runs {
        Runs {
            marks: 0,
            entries: [0; PARTS],
            count: 0,
        }
    }

    /// Adds the parts from one on before another, all of which have one entry.
    #[inline(always)]
    pub(crate) fn add(&mut self, from: usize, _end: usize, entry: u32) {
        if from > 0 && self.entries[self.count - 1] == entry {
            return;
        }
        self.marks += 1 << (63 - from);
        self.entries[self.count] = entry;
        self.count += 1;
    }
}

/// Puts the words of a node: its marks and the entries of its runs.
#[inline]
pub(crate) fn put_node<S: Sink>(runs: &Runs, sink: &mut S) -> Result<(), Stop> {
    sink.push((runs.marks % (1 << 32)) as u32)?;
    sink.push((runs.marks >> 32) as u32)?;
    put_words(&runs.entries, runs.count, sink)
}

/// Puts the first words of an array, so many.
#[inline]
fn put_words<S: Sink>(words: &[u32], count: usize, sink: &mut S) -> Result<(), Stop> {
    for at in 0..count {
        sink.push(words[at])?;
    }
    Ok(())
}
