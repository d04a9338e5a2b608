//! The networks that a second list adds to a first one, and those that it lacks.

use crate::formats::{LineFormat, Notation, object_end};
use cidr::{Family, NetworkBits};

/// Whether a network is added or lacking.
#[derive(Clone, Copy, Debug, PartialEq)]
pub enum Sign {
    /// The second list adds it.
    Plus,
    /// The second list lacks it.
    Minus,
}

/// The sign in front of a network: `+` or `-`.
#[inline]
pub fn sign_text(sign: Sign) -> &'static str {
    match sign {
        Sign::Plus => "+",
        Sign::Minus => "-",
    }
}

/// How a change is written as a line.
#[derive(Clone, Copy, Debug)]
pub struct ChangeLayout<'a> {
    /// In front of its sign.
    pub before: &'a str,
    /// Between the sign and the network.
    pub between: &'a str,
    /// How the network is written.
    pub notation: Notation,
    /// Behind the network.
    pub behind: &'a str,
}

/// An object of JSON.
#[inline]
fn json(family: Family) -> ChangeLayout<'static> {
    ChangeLayout {
        before: "{\"change\":\"",
        between: "\",\"network\":\"",
        notation: Notation::Members,
        behind: object_end(family),
    }
}

/// How a change of a network of a family is written as a line: `+192.0.2.0/24`, or
/// `{"change":"+","network":"192.0.2.0/24","first":"192.0.2.0","last":"192.0.2.255","length":24,"family":"IPv4"}`.
pub fn change_layout(format: LineFormat, family: Family) -> ChangeLayout<'static> {
    match format {
        LineFormat::Plain => ChangeLayout {
            before: "",
            between: "",
            notation: Notation::Plain,
            behind: "",
        },
        LineFormat::Json => json(family),
    }
}

/// Whether the first of the networks of two lists is an added one.
#[inline]
fn adds_first<C: NetworkBits>(added: &[C], lacking: &[C]) -> bool {
    let Some((plus, _)) = added.split_first() else {
        return false;
    };
    let Some((minus, _)) = lacking.split_first() else {
        return true;
    };
    plus.cmp(minus).is_lt()
}

/// The networks of two lists that are left, each with its sign, ascending where both lists are: each call of `next`
/// takes the first of both. It allocates nothing.
pub struct Changes<'a, C: NetworkBits + Copy> {
    /// What the second list adds: what its set has and the first one's has not.
    pub added: &'a [C],
    /// What the second list lacks: what the first one's set has and its own has not.
    pub lacking: &'a [C],
}

impl<'a, C: NetworkBits + Copy> Iterator for Changes<'a, C> {
    type Item = (Sign, C);

    fn next(&mut self) -> Option<(Sign, C)> {
        if adds_first(self.added, self.lacking) {
            let (network, rest) = self.added.split_first()?;
            self.added = rest;
            return Some((Sign::Plus, *network));
        }
        let (network, rest) = self.lacking.split_first()?;
        self.lacking = rest;
        Some((Sign::Minus, *network))
    }
}
