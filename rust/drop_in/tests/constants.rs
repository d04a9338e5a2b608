//! Calls of both families and of either in constants.

use cidr::errors::InetTupleError;
use cidr::{AnyIpCidr, Family, InetAddressIterator, InetIterator, IpCidr, Ipv4Cidr, Ipv4Inet, Ipv4InetPair, Ipv6Cidr, Ipv6Inet};
use std::net::{IpAddr, Ipv4Addr, Ipv6Addr};

const TEN: Ipv4Cidr = match Ipv4Cidr::new(Ipv4Addr::new(10, 0, 0, 0), 8) {
    Ok(network) => network,
    Err(_) => panic!(),
};
const HOST: Ipv6Inet = match Ipv6Inet::new(Ipv6Addr::new(0x2001, 0xdb8, 0, 0, 0, 0, 0, 1), 64) {
    Ok(host) => host,
    Err(_) => panic!(),
};
const EITHER: IpCidr = match IpCidr::new(IpAddr::V4(Ipv4Addr::new(10, 0, 0, 0)), 8) {
    Ok(network) => network,
    Err(_) => panic!(),
};
const CONTAINS: bool = TEN.contains(&Ipv4Addr::new(10, 1, 2, 3));
const WRAPPED: (Ipv6Inet, bool) = HOST.overflowing_add(1 << 64);
const LONE: AnyIpCidr = AnyIpCidr::new_host(IpAddr::V6(Ipv6Addr::LOCALHOST));
const LAST: Ipv6Addr = HOST.network().last_address();
const BEHIND: Option<Ipv4Inet> = TEN.last().next();
const PAIR: Result<Ipv4InetPair, InetTupleError> = Ipv4InetPair::new(TEN.first(), TEN.last());
const WALK: InetIterator<Ipv4Addr> = TEN.iter();
const EITHER_WALK: InetAddressIterator<IpAddr> = EITHER.iter().addresses();
const WHOLE: InetIterator<Ipv6Addr> = Ipv6Cidr::new_host(Ipv6Addr::LOCALHOST).iter();
const LONE_HOST: Ipv6Inet = Ipv6Inet::new_host(Ipv6Addr::LOCALHOST);
const WIDTH: u8 = Family::Ipv6.len();
static NETWORKS: [Ipv4Cidr; 2] = [TEN, Ipv4Cidr::new_host(Ipv4Addr::LOCALHOST)];

#[test]
fn constants_are_as_made_at_run_time() {
    assert!(CONTAINS && WRAPPED == (HOST, true) && BEHIND.is_none() && WIDTH == 128);
    assert_eq!(format!("{TEN} {HOST} {EITHER} {LONE}"), "10.0.0.0/8 2001:db8::1/64 10.0.0.0/8 ::1");
    assert_eq!(LAST.to_string(), "2001:db8::ffff:ffff:ffff:ffff");
    assert_eq!(format!("{NETWORKS:?}"), "[10.0.0.0/8, 127.0.0.1/32]");
    assert_eq!(PAIR.unwrap().to_string(), "(10.0.0.0/8, 10.255.255.255/8)");
    assert_eq!((WALK.count(), EITHER_WALK.count(), WHOLE.count()), (1 << 24, 1 << 24, 1));
    assert!(WALK.take(3).eq(PAIR.unwrap().iter().take(3)) && WHOLE.eq([LONE_HOST]));
    assert_eq!(EITHER_WALK.rev().next(), Some(IpAddr::V4(TEN.last_address())));
}
