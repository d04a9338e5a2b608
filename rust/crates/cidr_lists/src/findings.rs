//! What is found in the lines of lists.

use crate::entries::{Entry, Place, entry_at};
use crate::near::Near;
use cidr::{IpCidr, IpInet};

/// What is found in a line.
#[derive(Clone, Copy, Debug)]
pub enum Finding<'a> {
    /// It has a host with a set bit after the prefix.
    HostBits,
    /// It has not the printed string of this host.
    NotCanonical(IpInet),
    /// An earlier line has the same network: the first one.
    Repeats(Place<'a>),
    /// Its network is inside a larger one of another line: the smallest of these, and the first line that has it.
    Inside(IpCidr, Place<'a>),
    /// An earlier line has the other half of a network: the first one.
    Mergeable(Place<'a>),
}

/// A finding with the line that it is of.
#[derive(Clone, Copy, Debug)]
pub struct Note<'a> {
    /// The index of the line, from 0 on, among those that have a network or a host.
    pub index: usize,
    /// Where the line stands.
    pub place: Place<'a>,
    /// What is found in it.
    pub finding: Finding<'a>,
}

/// The finding that a bit after the prefix is set.
fn host_bits<'a>(entries: &[Entry<'a>], index: usize, entry: &Entry<'a>) -> Option<Note<'a>> {
    // a step down from the first address wraps
    let (_, wraps) = entry.host.overflowing_sub(1);
    if wraps {
        return None;
    }
    Some(Note {
        index,
        place: entry.place,
        finding: Finding::HostBits,
    })
}

/// The finding that the field is not what is printed of its host.
fn not_canonical<'a>(entries: &[Entry<'a>], index: usize, entry: &Entry<'a>) -> Option<Note<'a>> {
    if entry.is_canonical {
        return None;
    }
    Some(Note {
        index,
        place: entry.place,
        finding: Finding::NotCanonical(entry.host),
    })
}

/// The finding that an earlier line has the same network.
fn repeats<'a>(
    entries: &[Entry<'a>],
    near: Near,
    index: usize,
    entry: &Entry<'a>,
) -> Option<Note<'a>> {
    let first = near.first;
    if first >= index {
        return None;
    }
    Some(Note {
        index,
        place: entry.place,
        finding: Finding::Repeats(entry_at(entries, first).place),
    })
}

/// The finding that the network is inside a larger one.
fn inside<'a>(
    entries: &[Entry<'a>],
    near: Near,
    index: usize,
    entry: &Entry<'a>,
) -> Option<Note<'a>> {
    match near.outer {
        Some(first) => {
            let outer = entry_at(entries, first);
            Some(Note {
                index,
                place: entry.place,
                finding: Finding::Inside(outer.host.network(), outer.place),
            })
        }
        None => None,
    }
}

/// The finding that an earlier line has the other half.
fn mergeable<'a>(
    entries: &[Entry<'a>],
    near: Near,
    index: usize,
    entry: &Entry<'a>,
) -> Option<Note<'a>> {
    match near.half {
        Some(first) => {
            if first >= index {
                return None;
            }
            Some(Note {
                index,
                place: entry.place,
                finding: Finding::Mergeable(entry_at(entries, first).place),
            })
        }
        None => None,
    }
}

/// What is looked for in a line.
#[derive(Clone, Copy, Debug)]
pub enum FindingKind {
    /// Set bits after the prefix.
    HostBits,
    /// Another string than the printed one.
    Form,
    /// An earlier line of the same network.
    Same,
    /// A larger network around it.
    Outer,
    /// An earlier line of the other half.
    Half,
}

/// The finding of a kind in a line, near whose network this stands, or `None` where there is none of that kind, in
/// constant time. `index` is that of the line among the lines, counted from 0. The caller has to ensure that `near` is
/// what `near_at` gave for the line, among the same lines.
#[inline]
pub fn find<'a>(
    kind: FindingKind,
    entries: &[Entry<'a>],
    near: Near,
    index: usize,
    entry: &Entry<'a>,
) -> Option<Note<'a>> {
    match kind {
        FindingKind::HostBits => host_bits(entries, index, entry),
        FindingKind::Form => not_canonical(entries, index, entry),
        FindingKind::Same => repeats(entries, near, index, entry),
        FindingKind::Outer => inside(entries, near, index, entry),
        FindingKind::Half => mergeable(entries, near, index, entry),
    }
}
