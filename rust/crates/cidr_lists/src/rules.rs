//! Access lists: rules that permit or deny the addresses of networks, the first of which decides.

use cidr_support::vec::Vec;
use crate::columns::{network_in, split_line};
use crate::errors::{LineError, ListError};
use crate::lines::HostBits;
use crate::sets::Sets;
use crate::texts::line_len;
use cidr::{IpCidr, Ipv4Cidr, Ipv6Cidr, NetworkBits};
use cidr_io::decimal::decimal_text;
use cidr_io::lines::is_too_long;
use cidr_io::shown::{byte_excerpt, shown_char};
use cidr_sets::NetworkSet;
use cidr_sets::access::{Action, Rule, Shadow, permitted, shadowed_by};
use cidr_support::alloc::{AllocError, Global};

/// What is done with the addresses of a network, and where it is said.
#[derive(Clone, Copy, Debug)]
pub struct Ruling {
    /// Whether the addresses are permitted or denied.
    pub action: Action,
    /// The number of the line, from 1 on.
    pub number: u64,
}

/// The rules of an access list, those of each family in their order.
pub struct Rules {
    /// Those of IPv4.
    pub v4: Vec<(Ipv4Cidr, Ruling)>,
    /// Those of IPv6.
    pub v6: Vec<(Ipv6Cidr, Ruling)>,
}

/// The action that a word is.
#[inline]
pub(crate) fn action_of(word: &[u8]) -> Option<Action> {
    if word == b"permit".as_slice() {
        return Some(Action::Permit);
    }
    if word == b"deny".as_slice() {
        return Some(Action::Deny);
    }
    None
}

/// The rule that a line says: `permit` or `deny` and, behind white space, a network or an address, with white space around
/// it and a comment behind it from `#` or `;` on; `None` for a line that is blank or a comment alone. A range is in error
/// here.
///
/// The first error is, in this order: `NoAction` of another word; `NoField` where nothing stands behind it; `NotUtf8` of
/// what does, and `NoNetwork`. A line of more than 1 MiB is for the caller to find.
pub fn rule_of(host_bits: HostBits, line: &[u8]) -> Result<Option<(IpCidr, Action)>, LineError> {
    let Some((word, rest)) = split_line(line) else {
        return Ok(None);
    };
    let Some(action) = action_of(word) else {
        return Err(LineError::NoAction(byte_excerpt(word)));
    };
    if rest.is_empty() {
        return Err(LineError::NoField);
    }
    match network_in(host_bits, rest) {
        Ok(network) => Ok(Some((network, action))),
        Err(e) => Err(e),
    }
}

/// Adds the rule that a line says, if it says one.
fn add_rule_line(
    host_bits: HostBits,
    number: u64,
    line: &[u8],
    rules: &mut Rules,
) -> Result<(), ListError> {
    if is_too_long(line) {
        return Err(ListError::Line(number, LineError::TooLong));
    }
    match rule_of(host_bits, line) {
        Ok(None) => Ok(()),
        Ok(Some((network, action))) => {
            rules.push(&network, Ruling { action, number })?;
            Ok(())
        }
        Err(e) => Err(ListError::Line(number, e)),
    }
}

/// The rules as those of `cidr_sets`.
fn plain_rules<C: NetworkBits + Copy>(
    alloc: Global,
    rules: &[(C, Ruling)],
) -> Result<Vec<Rule<C>>, AllocError> {
    let mut out = Vec::new(alloc);
    for rule in rules {
        out.push(Rule {
            action: rule.1.action,
            network: rule.0,
        })?;
    }
    Ok(out)
}

/// The addresses that the rules of a family permit.
#[inline]
fn permitted_by<C: NetworkBits + Copy>(
    alloc: Global,
    rules: &[(C, Ruling)],
) -> Result<NetworkSet<C>, AllocError> {
    let plain = plain_rules(alloc, rules)?;
    permitted(alloc, plain.as_slice())
}

/// The number of the line of a rule.
#[inline]
fn number_at<C>(rules: &[(C, Ruling)], index: usize) -> u64 {
    match rules.get(index) {
        Some(rule) => rule.1.number,
        None => 0,
    }
}

/// Appends a string as it is shown in a message.
#[inline]
fn push_shown(text: &mut Vec<u8>, string: &str) -> Result<(), AllocError> {
    for c in string.chars() {
        text.extend_from_slice(shown_char(c).as_str().as_bytes())?;
    }
    Ok(())
}

/// Appends `FILE:LINE` of a rule.
#[inline]
fn push_place<C>(
    text: &mut Vec<u8>,
    file: &[u8],
    rules: &[(C, Ruling)],
    index: usize,
) -> Result<(), AllocError> {
    text.extend_from_slice(file)?;
    text.push(b':')?;
    let number = decimal_text(u128::from(number_at(rules, index)));
    text.extend_from_slice(number.as_str().as_bytes())?;
    Ok(())
}

/// Appends the places of rules, each behind a space.
#[inline]
fn push_places<C>(
    text: &mut Vec<u8>,
    file: &[u8],
    rules: &[(C, Ruling)],
    indices: &[usize],
) -> Result<(), AllocError> {
    for index in indices {
        text.push(b' ')?;
        push_place(text, file, rules, *index)?;
    }
    Ok(())
}

/// Appends what is told of a rule that no address reaches, as a line.
#[inline]
fn push_shadow<C>(
    text: &mut Vec<u8>,
    file: &[u8],
    rules: &[(C, Ruling)],
    shadow: &Shadow,
) -> Result<(), AllocError> {
    push_place(text, file, rules, shadow.rule)?;
    text.extend_from_slice(b": shadowed by")?;
    push_places(text, file, rules, shadow.by.as_slice())?;
    text.push(b'\n')?;
    Ok(())
}

/// Appends what is told of rules that no address reaches, one a line.
#[inline]
fn push_each<C>(
    text: &mut Vec<u8>,
    file: &[u8],
    rules: &[(C, Ruling)],
    shadows: &[Shadow],
) -> Result<(), AllocError> {
    for shadow in shadows {
        push_shadow(text, file, rules, shadow)?;
    }
    Ok(())
}

/// Appends what is told of each rule of a family that no address reaches, one a line.
#[inline]
fn push_shadows<C: NetworkBits + Copy>(
    alloc: Global,
    text: &mut Vec<u8>,
    file: &[u8],
    rules: &[(C, Ruling)],
) -> Result<(), AllocError> {
    let plain = plain_rules(alloc, rules)?;
    let shadows = shadowed_by(alloc, plain.as_slice())?;
    push_each(text, file, rules, shadows.as_slice())?;
    Ok(())
}

impl Rules {
    /// No rules. It allocates nothing.
    #[inline]
    pub fn new(alloc: Global) -> Rules {
        Rules {
            v4: Vec::new(alloc),
            v6: Vec::new(alloc),
        }
    }

    /// Adds a rule behind those of its family. After an error, which is that there is no memory, what was added isn't told.
    #[inline]
    pub fn push(&mut self, network: &IpCidr, ruling: Ruling) -> Result<(), AllocError> {
        match network {
            IpCidr::V4(network) => self.v4.push((*network, ruling))?,
            IpCidr::V6(network) => self.v6.push((*network, ruling))?,
        }
        Ok(())
    }

    /// The rules that an access list says, by [`rule_of`] of each line. The error is that of the first line in error, with
    /// its number from 1 on, where one of more than 1 MiB is `TooLong`; `NoMemory` may come before it. It takes time in the
    /// length of the text.
    pub fn of_text(alloc: Global, host_bits: HostBits, text: &[u8]) -> Result<Rules, ListError> {
        let mut rules = Rules::new(alloc);
        let mut rest = text;
        let mut number = 1;
        loop {
            let (line, behind) = rest.split_at(line_len(rest));
            add_rule_line(host_bits, number, line, &mut rules)?;
            let Some((_, next)) = behind.split_first() else {
                return Ok(rules);
            };
            rest = next;
            number += 1;
        }
    }

    /// The addresses of each family that the rules permit: the first rule whose network has an address decides, and an
    /// address that is in none is denied. It takes the time and memory of `cidr_sets::access::permitted`. The error is that
    /// there is no memory.
    #[inline]
    pub fn permitted(&self, alloc: Global) -> Result<Sets, AllocError> {
        Ok(Sets {
            v4: permitted_by(alloc, self.v4.as_slice())?,
            v6: permitted_by(alloc, self.v6.as_slice())?,
        })
    }

    /// A line for each rule that no address reaches, as `FILE:4: shadowed by FILE:1 FILE:3`, with the earlier rules that
    /// decide the addresses of its network: those of IPv4 before those of IPv6. It takes the time and memory of
    /// `cidr_sets::access::shadowed_by`. The error is that there is no memory.
    #[inline]
    pub fn to_shadow_lines(&self, alloc: Global, file: &str) -> Result<Vec<u8>, AllocError> {
        let mut name = Vec::new(alloc);
        push_shown(&mut name, file)?;
        let mut text = Vec::new(alloc);
        push_shadows(alloc, &mut text, name.as_slice(), self.v4.as_slice())?;
        push_shadows(alloc, &mut text, name.as_slice(), self.v6.as_slice())?;
        Ok(text)
    }
}
