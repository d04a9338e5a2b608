//! Walks as values: copies, and what is left after calls of `drive`.

use crate::read;
use cidr::{drive, End, Ipv4Addr, Ipv4Cidr, Ipv6Cidr};

#[test]
fn a_copy_of_a_walk_has_what_is_left() {
    let all: Ipv6Cidr = read("::/0");
    let mut walk = all.iter().addresses();
    assert_eq!((walk.next(), walk.next_back()), (Some(all.first_address()), Some(all.last_address())));
    let copy = walk.clone();
    assert_eq!(copy.size_hint(), (usize::MAX, None));
    assert_eq!(copy.count(), None);
    let mut hosts = read::<Ipv4Cidr>("0.0.0.0/0").into_iter();
    assert!(hosts.next().is_some() && hosts.next_back().is_some());
    let left = Some((1 << 32) - 2);
    assert_eq!((hosts.clone().count(), hosts.count()), (left, left));
}

#[test]
fn a_walk_goes_on_after_no_calls_and_ends_after_its_last_one() {
    let mut walk = read::<Ipv4Cidr>("1.2.3.0/30").iter().addresses();
    drive(&mut walk, &[], &mut []);
    let address = |last| Some(Ipv4Addr::new(1, 2, 3, last));
    assert_eq!((walk.next(), walk.next_back()), (address(0), address(3)));
    let mut answers = [None; 2];
    drive(&mut walk, &[End::Back, End::Front], &mut answers);
    assert_eq!(answers, [address(2), address(1)]);
    assert_eq!((walk.next(), walk.next_back()), (None, None));
    assert_eq!(walk.count(), Some(0));
}
