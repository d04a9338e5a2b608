//! Access lists: rules in order, each of which permits or denies the packets of a region.

use crate::fields::FieldValue;
use crate::regions::{Packet, Region};

/// What a rule does with its packets.
#[derive(Debug, Clone, Copy, PartialEq, Eq)]
pub enum Action {
    /// The packets are permitted.
    Permit,
    /// The packets are denied.
    Deny,
}

/// A rule of an access list.
#[derive(Debug, Clone, Copy)]
pub struct Rule<A: FieldValue> {
    /// What the rule does with a packet of its region that no earlier rule has.
    pub action: Action,
    /// The packets that the rule is about.
    pub region: Region<A>,
}

/// The index of the rule that decides a packet, counted from 0: the first that has it. A packet that no rule has is denied.
///
/// It goes through the rules up to the one that decides, O(n), and takes no memory.
///
/// ```
/// # use cidr::*;
/// # use cidr_rules::*;
/// # use cidr_support::alloc::Global;
/// let traffic = Traffic::Ports(Transport::Tcp, Range { first: 0, last: 65535 }, Range { first: 443, last: 443 });
/// let any: Ipv4Cidr = "0.0.0.0/0".parse()?;
/// let entry = Entry { action: Action::Permit, source: "10.0.0.0/8".parse()?, destination: any, traffic };
/// let other = Entry { action: Action::Deny, source: any, destination: any, traffic: Traffic::Any };
/// let rules = [entry.rule(), other.rule(), entry.rule()];
/// let packet = Packet { source: "10.0.0.1".parse::<Ipv4Addr>()?, destination: "192.0.2.1".parse()?, protocol: 6, source_port: 50000,
///     destination_port: 443 };
/// assert_eq!(format!("{:?}", decides(&rules, &packet)), "Some(0)");
/// # Ok::<(), Box<dyn std::error::Error>>(())
/// ```
#[inline]
pub fn decides<A: FieldValue>(rules: &[Rule<A>], packet: &Packet<A>) -> Option<usize> {
    rules.iter().position(|rule| rule.region.contains(packet))
}

/// Whether a packet is permitted: by the first rule that has it. A packet that no rule has is denied.
///
/// It goes through the rules up to the one that decides, O(n), and takes no memory.
///
/// ```
/// # use cidr::*;
/// # use cidr_rules::*;
/// # use cidr_support::alloc::Global;
/// let traffic = Traffic::Ports(Transport::Tcp, Range { first: 0, last: 65535 }, Range { first: 443, last: 443 });
/// let any: Ipv4Cidr = "0.0.0.0/0".parse()?;
/// let entry = Entry { action: Action::Permit, source: "10.0.0.0/8".parse()?, destination: any, traffic };
/// let other = Entry { action: Action::Deny, source: any, destination: any, traffic: Traffic::Any };
/// let rules = [entry.rule(), other.rule(), entry.rule()];
/// let packet = Packet { source: "10.0.0.1".parse::<Ipv4Addr>()?, destination: "192.0.2.1".parse()?, protocol: 6, source_port: 50000,
///     destination_port: 443 };
/// assert!(permits(&rules, &packet));
/// # Ok::<(), Box<dyn std::error::Error>>(())
/// ```
#[inline]
pub fn permits<A: FieldValue>(rules: &[Rule<A>], packet: &Packet<A>) -> bool {
    for rule in rules {
        if rule.region.contains(packet) {
            return is_permit(rule.action);
        }
    }
    false
}

/// Whether the packets of a rule are permitted.
#[inline]
pub(crate) fn is_permit(action: Action) -> bool {
    match action {
        Action::Permit => true,
        Action::Deny => false,
    }
}
