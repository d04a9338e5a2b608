//! Lists of few packets beside a model that tries each packet, and entries by the words of routers.

use cidr::{Ipv4Addr, Ipv4Cidr, Ipv6Cidr};
use cidr_rules::{
    decides, differences, differing_packet, permits, pruned, redundant, shadowed, Action, Difference, Entry, Packet, Range, Region, Rule,
    RulesError, Traffic, Transport,
};
use cidr_support::alloc::Global;

/// Numbers by a linear congruence (Knuth's MMIX).
struct Numbers(u64);

impl Numbers {
    fn below(&mut self, bound: u64) -> u64 {
        self.0 = self.0.wrapping_mul(6364136223846793005).wrapping_add(1442695040888963407);
        (self.0 >> 33) % bound
    }

    /// A range of the numbers below 3, and one in five is empty.
    fn ends(&mut self) -> (u8, u8) {
        let (one, other) = (self.below(3) as u8, self.below(3) as u8);
        if self.below(5) > 0 { (one.min(other), one.max(other)) } else { (one, other) }
    }
}

fn address(last: u8) -> Ipv4Addr {
    Ipv4Addr::new(192, 0, 2, last)
}

fn rule(numbers: &mut Numbers) -> Rule<Ipv4Addr> {
    let mut addresses = || {
        let (first, last) = numbers.ends();
        Range { first: address(first), last: address(last) }
    };
    let (source, destination) = (addresses(), addresses());
    let (first, last) = numbers.ends();
    let protocol = Range { first, last };
    let mut ports = || {
        let (first, last) = numbers.ends();
        Range { first: u16::from(first), last: u16::from(last) }
    };
    let (source_port, destination_port) = (ports(), ports());
    let action = if numbers.below(2) == 0 { Action::Permit } else { Action::Deny };
    Rule { action, region: Region { source, destination, protocol, source_port, destination_port } }
}

/// Each packet of three values a field.
fn packets() -> Vec<Packet<Ipv4Addr>> {
    (0..243u32)
        .map(|n| {
            let digit = |k: u32| (n / 3u32.pow(k) % 3) as u8;
            Packet {
                source: address(digit(0)),
                destination: address(digit(1)),
                protocol: digit(2),
                source_port: u16::from(digit(3)),
                destination_port: u16::from(digit(4)),
            }
        })
        .collect()
}

fn is_in(region: &Region<Ipv4Addr>, packet: &Packet<Ipv4Addr>) -> bool {
    (region.source.first..=region.source.last).contains(&packet.source)
        && (region.destination.first..=region.destination.last).contains(&packet.destination)
        && (region.protocol.first..=region.protocol.last).contains(&packet.protocol)
        && (region.source_port.first..=region.source_port.last).contains(&packet.source_port)
        && (region.destination_port.first..=region.destination_port.last).contains(&packet.destination_port)
}

fn has(rule: &Rule<Ipv4Addr>, packet: &Packet<Ipv4Addr>) -> bool {
    is_in(&rule.region, packet)
}

fn first(rules: &[Rule<Ipv4Addr>], packet: &Packet<Ipv4Addr>) -> Option<usize> {
    (0..rules.len()).find(|&i| has(&rules[i], packet))
}

fn permitted(rules: &[Rule<Ipv4Addr>], packet: &Packet<Ipv4Addr>) -> bool {
    first(rules, packet).is_some_and(|i| rules[i].action == Action::Permit)
}

/// Whether some packets are all that a region has: those between the least and the greatest of each field.
fn are_a_region(packets: &[Packet<Ipv4Addr>]) -> bool {
    let count = |field: fn(&Packet<Ipv4Addr>) -> u32| {
        let numbers = || packets.iter().map(field);
        numbers().max().zip(numbers().min()).map_or(0, |(most, least)| most - least + 1)
    };
    let sizes = [
        count(|p| p.source.to_bits()),
        count(|p| p.destination.to_bits()),
        count(|p| u32::from(p.protocol)),
        count(|p| u32::from(p.source_port)),
        count(|p| u32::from(p.destination_port)),
    ];
    sizes.iter().product::<u32>() as usize == packets.len()
}

/// What is told of two lists: each packet on which they differ once, no other, under its rules, and in no more regions than needed
/// by twos.
fn are_differences(rules: &[Rule<Ipv4Addr>], others: &[Rule<Ipv4Addr>], told: &[Difference<Ipv4Addr>], all: &[Packet<Ipv4Addr>]) {
    for packet in all {
        let here: Vec<_> = told.iter().filter(|it| is_in(&it.region, packet)).collect();
        let apart = permitted(rules, packet) != permitted(others, packet);
        assert_eq!(here.len(), usize::from(apart));
        assert!(here.iter().all(|it| it.rule == first(rules, packet) && it.other == first(others, packet)));
    }
    for (i, one) in told.iter().enumerate() {
        for other in told[i + 1..].iter().filter(|it| it.rule == one.rule && it.other == one.other) {
            let both: Vec<_> = all.iter().filter(|p| is_in(&one.region, p) || is_in(&other.region, p)).copied().collect();
            assert!(!are_a_region(&both));
        }
    }
}

#[test]
fn lists_beside_a_model() {
    let mut numbers = Numbers(1);
    let all = packets();
    let (mut dead_rules, mut free_rules, mut same_lists, mut other_lists, mut regions) = (0, 0, 0, 0, 0);
    for _ in 0..10_000 {
        let rules: Vec<_> = (0..numbers.below(8)).map(|_| rule(&mut numbers)).collect();
        for packet in &all {
            assert_eq!(decides(&rules, packet), first(&rules, packet));
            assert_eq!(permits(&rules, packet), permitted(&rules, packet));
        }
        let dead: Vec<usize> = (0..rules.len()).filter(|&i| all.iter().all(|p| first(&rules, p) != Some(i))).collect();
        assert_eq!(shadowed(Global, &rules, u64::MAX).unwrap().as_slice(), dead);
        let free: Vec<usize> = (0..rules.len())
            .filter(|&i| {
                let mut rest = rules.clone();
                rest.remove(i);
                all.iter().all(|p| permitted(&rest, p) == permitted(&rules, p))
            })
            .collect();
        assert_eq!(redundant(Global, &rules, u64::MAX).unwrap().as_slice(), free);
        let short = pruned(Global, &rules, u64::MAX).unwrap();
        assert_eq!(short.len() + dead.len(), rules.len());
        assert!(differing_packet(Global, &rules, short.as_slice(), u64::MAX).unwrap().is_none());
        let mut others = rules.clone();
        if numbers.below(2) == 0 {
            let place = numbers.below(others.len() as u64 + 1) as usize;
            others.insert(place, rule(&mut numbers));
        } else {
            others = (0..numbers.below(8)).map(|_| rule(&mut numbers)).collect();
        }
        match differing_packet(Global, &rules, &others, u64::MAX).unwrap() {
            Some(packet) => assert!(permitted(&rules, &packet) != permitted(&others, &packet)),
            None => assert!(all.iter().all(|p| permitted(&rules, p) == permitted(&others, p))),
        }
        let told = differences(Global, &rules, &others, u64::MAX).unwrap();
        are_differences(&rules, &others, told.as_slice(), &all);
        regions += told.len();
        dead_rules += dead.len();
        free_rules += free.len();
        if all.iter().all(|p| permitted(&rules, p) == permitted(&others, p)) { same_lists += 1 } else { other_lists += 1 }
    }
    assert!(regions > 10_000);
    assert!(dead_rules > 1000 && free_rules > 1000 && same_lists > 1000 && other_lists > 1000);
}

fn ports(first: u16, last: u16) -> Range<u16> {
    Range { first, last }
}

fn packet(source: &str, destination: &str, protocol: u8, source_port: u16, destination_port: u16) -> Packet<Ipv4Addr> {
    let (source, destination) = (source.parse().unwrap(), destination.parse().unwrap());
    Packet { source, destination, protocol, source_port, destination_port }
}

/// `permit tcp 10.0.0.0/8 any eq 443`, `permit icmp any any`, `deny any`: TCP is protocol 6, ICMP 1, UDP 17.
#[test]
fn entries_by_the_words_of_routers() {
    let (any, inside): (Ipv4Cidr, Ipv4Cidr) = ("0.0.0.0/0".parse().unwrap(), "10.0.0.0/8".parse().unwrap());
    let https = Traffic::Ports(Transport::Tcp, ports(0, 65535), ports(443, 443));
    let entries = [
        Entry { action: Action::Permit, source: inside, destination: any, traffic: https },
        Entry { action: Action::Permit, source: any, destination: any, traffic: Traffic::Protocol(1) },
        Entry { action: Action::Deny, source: any, destination: any, traffic: Traffic::Any },
    ];
    let rules = entries.map(|entry| entry.rule());
    let rows = [
        ("10.0.0.0", 6, 443, 0),
        ("10.255.255.255", 6, 443, 0),
        ("11.0.0.0", 6, 443, 2),
        ("9.255.255.255", 6, 443, 2),
        ("10.0.0.1", 6, 444, 2),
        ("10.0.0.1", 17, 443, 2),
        ("11.0.0.0", 1, 443, 1),
        ("11.0.0.0", 1, 0, 1),
    ];
    for (source, protocol, port, index) in rows {
        let asked = packet(source, "198.51.100.1", protocol, 50000, port);
        assert_eq!(decides(&rules, &asked), Some(index));
        assert_eq!(permits(&rules, &asked), index < 2);
    }
    let numbers: Vec<u8> = [Transport::Tcp, Transport::Udp, Transport::Dccp, Transport::Sctp, Transport::UdpLite].map(|t| t.number()).to_vec();
    assert_eq!(numbers, [6, 17, 33, 132, 136]);
    let all: Ipv6Cidr = "::/0".parse().unwrap();
    let entry = Entry { action: Action::Permit, source: all, destination: all, traffic: Traffic::Any };
    assert!(shadowed(Global, &[entry.rule(), entry.rule()], 10).unwrap().as_slice() == [1]);
}

#[test]
fn limits_and_sizes() {
    assert_eq!(size_of::<Region<Ipv4Addr>>(), 28);
    assert_eq!(size_of::<Region<cidr::Ipv6Addr>>(), 80);
    let any: Ipv4Cidr = "0.0.0.0/0".parse().unwrap();
    let rule = Entry { action: Action::Permit, source: any, destination: any, traffic: Traffic::Any }.rule();
    assert!(matches!(shadowed(Global, &[rule], 0), Err(RulesError::TooManyParts)));
    assert_eq!(shadowed(Global, &[rule], 1).unwrap().as_slice(), []);
}
