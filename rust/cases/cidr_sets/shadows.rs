//! Rules of access lists that no address reaches, each with the earlier rules that cover it, and ranges, as `Debug`
//! prints them.

use cidr::{Ipv4Addr, Ipv4Cidr};
use cidr_sets::access::{shadowed_by, Action, Rule};
use cidr_sets::alloc::Global;
use cidr_sets::NetworkSet;

/// The rules of a string, which has an action and a network of each.
fn rules(text: &str) -> Vec<Rule<Ipv4Cidr>> {
    let words: Vec<_> = text.split_whitespace().collect();
    let rule = |words: &[&str]| {
        let action = match words[0] {
            "permit" => Action::Permit,
            "deny" => Action::Deny,
            word => panic!("{word} is no action"),
        };
        Rule { action, network: words[1].parse().unwrap() }
    };
    words.chunks(2).map(rule).collect()
}

#[test]
fn a_shadowed_rule_is_told_with_those_that_cover_it() {
    for (text, wanted) in [
        (
            "deny 10.0.0.12/30 permit 10.0.0.4/30 permit 10.0.0.15/32 deny 10.0.0.0/28 permit 10.0.0.0/29",
            "[Shadow { rule: 2, by: [0] }, Shadow { rule: 4, by: [1, 3] }]",
        ),
        (
            "deny 10.0.0.12/30 permit 10.0.0.4/31 permit 10.0.0.2/32 permit 10.0.0.0/28 deny 10.0.0.0/30 \
             permit 10.0.0.8/29",
            "[Shadow { rule: 4, by: [2, 3] }, Shadow { rule: 5, by: [0, 3] }]",
        ),
        (
            "deny 10.0.0.4/30 permit 10.0.0.0/30 deny 10.0.0.8/30 deny 10.0.0.0/30 deny 10.0.0.0/29 \
             permit 10.0.0.0/28 deny 10.0.0.0/30",
            "[Shadow { rule: 3, by: [1] }, Shadow { rule: 4, by: [0, 1] }, Shadow { rule: 6, by: [1] }]",
        ),
        (
            "permit 10.0.0.0/30 permit 10.0.0.0/32 deny 10.0.0.0/29",
            "[Shadow { rule: 1, by: [0] }]",
        ),
    ] {
        let covered = shadowed_by(Global, &rules(text)).unwrap();
        assert_eq!(format!("{covered:?}"), wanted, "{text}");
    }
}

#[test]
fn a_range_is_printed_with_its_first_and_its_last_address() {
    let (first, last) = (Ipv4Addr::new(10, 0, 0, 1), Ipv4Addr::new(10, 0, 0, 6));
    let set = NetworkSet::<Ipv4Cidr>::from_range(Global, first, last).unwrap();
    let printed = "Some(AddressRange { first: 10.0.0.1, last: 10.0.0.6 })";
    assert_eq!(format!("{:?}", set.ranges().next()), printed);
}
