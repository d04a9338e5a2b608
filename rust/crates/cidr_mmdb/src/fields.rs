//! The front of a data field: its type and size, and where its payload begins.

use crate::kinds::{Field, Kind};
use crate::numbers::{four, three, two};

/// The field at a place; `None` where it goes past the end, or has no type.
pub(crate) fn field(section: &[u8], at: usize) -> Option<Field> {
    if at >= section.len() {
        return None;
    }
    let control = section[at];
    let low = u32::from(control % 32);
    if control / 32 == 1 {
        return pointer(section, at + 1, low);
    }
    if control / 32 > 0 {
        let kind = kind_of(u32::from(control / 32))?;
        return sized(section, at + 1, low, kind);
    }
    if at + 1 >= section.len() {
        return None;
    }
    let kind = kind_of(u32::from(section[at + 1]) + 7)?;
    sized(section, at + 2, low, kind)
}

/// The field at the place that a pointer names.
#[inline]
pub(crate) fn target(section: &[u8], pointer: Field) -> Option<Field> {
    field(section, pointer.size as usize)
}

/// The type with a number, but for pointers.
fn kind_of(number: u32) -> Option<Kind> {
    match number {
        2 => Some(Kind::Utf8String),
        3 => Some(Kind::Double),
        4 => Some(Kind::Bytes),
        5 => Some(Kind::Uint16),
        6 => Some(Kind::Uint32),
        7 => Some(Kind::Map),
        8 => Some(Kind::Int32),
        9 => Some(Kind::Uint64),
        10 => Some(Kind::Uint128),
        11 => Some(Kind::Array),
        14 => Some(Kind::Boolean),
        15 => Some(Kind::Float),
        _ => None,
    }
}

/// The field whose size goes on at a place, behind five bits of it.
fn sized(section: &[u8], at: usize, low: u32, kind: Kind) -> Option<Field> {
    if low < 29 {
        return Some(Field {
            kind,
            size: low,
            payload: at,
        });
    }
    let left = section.len() - at;
    if low == 29 {
        if left < 1 {
            return None;
        }
        return Some(Field {
            kind,
            size: 29 + u32::from(section[at]),
            payload: at + 1,
        });
    }
    if low == 30 {
        if left < 2 {
            return None;
        }
        return Some(Field {
            kind,
            size: 285 + two(section, at),
            payload: at + 2,
        });
    }
    if left < 3 {
        return None;
    }
    Some(Field {
        kind,
        size: 65_821 + three(section, at),
        payload: at + 3,
    })
}

/// The pointer whose bytes go on at a place, behind five bits.
fn pointer(section: &[u8], at: usize, low: u32) -> Option<Field> {
    let kind = Kind::Pointer;
    let left = section.len() - at;
    if low < 8 {
        if left < 1 {
            return None;
        }
        return Some(Field {
            kind,
            size: low * 256 + u32::from(section[at]),
            payload: at + 1,
        });
    }
    if low < 16 {
        if left < 2 {
            return None;
        }
        return Some(Field {
            kind,
            size: (low - 8) * 65_536 + two(section, at) + 2048,
            payload: at + 2,
        });
    }
    if low < 24 {
        if left < 3 {
            return None;
        }
        return Some(Field {
            kind,
            size: (low - 16) * 0x100_0000 + three(section, at) + 526_336,
            payload: at + 3,
        });
    }
    if left < 4 {
        return None;
    }
    Some(Field {
        kind,
        size: four(section, at),
        payload: at + 4,
    })
}
