//! calls ROUNDS [ROW]: times calls of Rust's standard library and of the crate `cidr` on the values that `bench`
//! has, or of one row alone.
//! Prints of each a line with tabs between: the name of the row, a number that hangs on all results, and the nanoseconds
//! that one call takes, by the crate where there is one and by `std::net` alone, `-` where it has no such call. Each is
//! the least of five turns. Compiled with `--cfg crate_cidr` where the crate is at hand.
mod rows;

use rows::*;
use std::fmt::{Display, Write};
#[cfg(crate_cidr)]
use std::hint::black_box;
use std::net::{IpAddr, Ipv4Addr, Ipv6Addr};
use std::str::FromStr;

/// Does a row by the standard library alone, and prints its line.
fn by_std(name: &str, time: impl FnOnce() -> Timed) {
    if wants(name) {
        let (time, number) = time();
        println!("{name}\t{number}\t-\t{time:.3}");
    }
}

/// Does a row by the crate, and prints its line.
#[cfg(crate_cidr)]
fn by_crate(name: &str, time: impl FnOnce() -> Timed) {
    if wants(name) {
        let (time, number) = time();
        println!("{name}\t{number}\t{time:.3}\t-");
    }
}

fn main() {
    let rounds = rounds();
    alone::all(rounds);
    #[cfg(crate_cidr)]
    beside::all(rounds);
}

/// The standard library: addresses, and networks in the plain way by a slash and a mask.
mod alone {
    use super::*;

    pub fn read<A: FromStr + Number>(rounds: u32, texts: &[String]) -> Timed {
        each(rounds, texts, |text| text.parse::<A>().ok().number())
    }

    /// What is printed into a buffer, as one number.
    pub fn print<A: Display>(rounds: u32, values: &[A]) -> Timed {
        each(rounds, values, |value| written(|text| write!(text, "{value}")))
    }

    pub fn all(rounds: u32) {
        let rounds = rounds_of_many(rounds);
        by_std("read IPv4 address", || read::<Ipv4Addr>(rounds, &texts(ipv4_sample, false)));
        by_std("read IPv6 address", || read::<Ipv6Addr>(rounds, &texts(ipv6_sample, false)));
        let address = |index| match ip_random(index).0 {
            IpAddr::V4(_) => (IpAddr::V4(ipv4_sample(index).0), 0),
            IpAddr::V6(_) => (IpAddr::V6(ipv6_sample(index).0), 0),
        };
        by_std("read IpAddr", || read::<IpAddr>(rounds, &texts(address, false)));
        let v4: Vec<Ipv4Addr> = (0..MANY).map(|index| ipv4_sample(index).0).collect();
        by_std("print IPv4 address", || print(rounds, &v4));
        by_std("print IPv4 line", || each(rounds, &v4, |value| written(|text| writeln!(text, "{value}"))));
        let v6: Vec<Ipv6Addr> = (0..MANY).map(|index| ipv6_sample(index).0).collect();
        by_std("print IPv6 address", || print(rounds, &v6));
    }
}

/// The crate `cidr`.
#[cfg(crate_cidr)]
mod beside {
    use super::alone::{print, read};
    use super::*;
    use cidr::parsers::{inet_addr, parse_cidr_ignore_hostbits, parse_short_ipv4_cidr};
    use cidr::{AnyIpCidr, IpCidr, Ipv4Cidr, Ipv4Inet, Ipv6Cidr, Ipv6Inet};

    impl Number for Ipv4Cidr {
        fn number(&self) -> u32 {
            with_length(self.first_address().number(), self.network_length())
        }
    }

    impl Number for Ipv6Cidr {
        fn number(&self) -> u32 {
            with_length(self.first_address().number(), self.network_length())
        }
    }

    impl Number for IpCidr {
        fn number(&self) -> u32 {
            with_length(self.first_address().number(), self.network_length())
        }
    }

    impl Number for AnyIpCidr {
        fn number(&self) -> u32 {
            match self {
                AnyIpCidr::Any => 2,
                AnyIpCidr::V4(network) => network.number(),
                AnyIpCidr::V6(network) => network.number(),
            }
        }
    }

    impl Number for Ipv4Inet {
        fn number(&self) -> u32 {
            with_length(self.address().number(), self.network_length())
        }
    }

    impl Number for Ipv6Inet {
        fn number(&self) -> u32 {
            with_length(self.address().number(), self.network_length())
        }
    }

    fn v4((address, len): (Ipv4Addr, u8)) -> Ipv4Cidr {
        Ipv4Cidr::new(address, len).expect("a network")
    }

    fn v6((address, len): (Ipv6Addr, u8)) -> Ipv6Cidr {
        Ipv6Cidr::new(address, len).expect("a network")
    }

    fn any(index: usize) -> AnyIpCidr {
        match index {
            0 => AnyIpCidr::Any,
            at if is_ipv4(at) => AnyIpCidr::V4(v4(ipv4_network(at))),
            at => AnyIpCidr::V6(v6(ipv6_network(at))),
        }
    }

    fn strings(rounds: u32) {
        let few = rounds;
        let rounds = rounds_of_many(rounds);
        let networks_v4 = texts(ipv4_random, true);
        by_crate("read IPv4 network", || read::<Ipv4Cidr>(rounds, &networks_v4));
        by_crate("read IPv6 network", || read::<Ipv6Cidr>(rounds, &texts(ipv6_random, true)));
        by_crate("read IpCidr", || read::<IpCidr>(rounds, &texts(ip_random, true)));
        by_crate("read AnyIpCidr", || read::<AnyIpCidr>(rounds, &texts(ip_random, true)));
        let hosts_v4 = texts(ipv4_sample, true);
        by_crate("read IPv4 host", || read::<Ipv4Inet>(rounds, &hosts_v4));
        by_crate("read IPv6 host", || read::<Ipv6Inet>(rounds, &texts(ipv6_sample, true)));
        let cleared = |text: &String| {
            parse_cidr_ignore_hostbits::<Ipv4Cidr, _>(text, |address| address.parse::<Ipv4Addr>()).ok().number()
        };
        by_crate("read IPv4 network, host bits cleared", || each(rounds, &hosts_v4, cleared));
        by_crate("read loose IPv4 address", || each(few, &LOOSE_ADDRESSES, |text| inet_addr(text).number()));
        let short = ["10", "10/8", "192.168", "172.16/12", "192.0.2", "198.51.100/25", "203.0.113.7", "100.64/10"];
        by_crate("read short IPv4 network", || each(few, &short, |text| parse_short_ipv4_cidr(text).ok().number()));

        let v4s: Vec<Ipv4Cidr> = (0..MANY).map(|index| v4(ipv4_random(index))).collect();
        by_crate("print IPv4 network", || print(rounds, &v4s));
        let v6s: Vec<Ipv6Cidr> = (0..MANY).map(|index| v6(ipv6_random(index))).collect();
        by_crate("print IPv6 network", || print(rounds, &v6s));
        let both = |index| match ip_random(index) {
            (IpAddr::V4(address), len) => IpCidr::V4(v4((address, len))),
            (IpAddr::V6(address), len) => IpCidr::V6(v6((address, len))),
        };
        let ips: Vec<IpCidr> = (0..MANY).map(both).collect();
        by_crate("print IpCidr", || print(rounds, &ips));
    }

    fn networks(rounds: u32) {
        let v4s: Vec<Ipv4Cidr> = (0..COUNT).map(|index| v4(ipv4_network(index))).collect();
        let v6s: Vec<Ipv6Cidr> = (0..COUNT).map(|index| v6(ipv6_network(index))).collect();
        let anys: Vec<AnyIpCidr> = (0..COUNT).map(any).collect();
        let addresses_v4: Vec<Ipv4Addr> = (0..COUNT).map(ipv4_address).collect();
        let addresses_v6: Vec<Ipv6Addr> = (0..COUNT).map(ipv6_address).collect();
        let either = |index| if is_ipv4(index) { ipv4_address(index).into() } else { ipv6_address(index).into() };
        let addresses: Vec<IpAddr> = (0..COUNT).map(either).collect();
        by_crate("contains IPv4", || pairs(rounds, &v4s, &addresses_v4, |one, other| u32::from(one.contains(other))));
        by_crate("contains IPv6", || pairs(rounds, &v6s, &addresses_v6, |one, other| u32::from(one.contains(other))));
        by_crate("contains AnyIpCidr", || pairs(rounds, &anys, &addresses, |one, other| u32::from(one.contains(other))));
        by_crate("cmp IPv4", || pairs(rounds, &v4s, &v4s, |one, other| u32::from(one.cmp(other).is_lt())));
        by_crate("cmp IPv6", || pairs(rounds, &v6s, &v6s, |one, other| u32::from(one.cmp(other).is_lt())));
        by_crate("cmp AnyIpCidr", || pairs(rounds, &anys, &anys, |one, other| u32::from(one.cmp(other).is_lt())));
        by_crate("sort 64 IPv4", || sorts(rounds, &v4s));
        by_crate("sort 64 IPv6", || sorts(rounds, &v6s));
        by_crate("sort 64 AnyIpCidr", || sorts(rounds, &anys));
    }

    fn steps(rounds: u32) {
        let v4s: Vec<Ipv4Inet> = (0..COUNT)
            .map(|index| Ipv4Inet::new(ipv4_network(index).0, ipv4_network(index).1).expect("a host"))
            .collect();
        let v6s: Vec<Ipv6Inet> = (0..COUNT)
            .map(|index| Ipv6Inet::new(ipv6_network(index).0, ipv6_network(index).1).expect("a host"))
            .collect();
        let steps: Vec<u128> = (0..COUNT).map(|index| u128::from(random(index) >> (index % 64))).collect();
        let moved_v4 = |(host, wraps): (Ipv4Inet, bool)| host.address().number() ^ u32::from(wraps);
        let moved_v6 = |(host, wraps): (Ipv6Inet, bool)| host.address().number() ^ u32::from(wraps);
        by_crate("step up IPv4", || pairs(rounds, &v4s, &steps, |host, step| moved_v4(host.overflowing_add(*step))));
        by_crate("step down IPv4", || pairs(rounds, &v4s, &steps, |host, step| moved_v4(host.overflowing_sub(*step))));
        by_crate("step up IPv6", || pairs(rounds, &v6s, &steps, |host, step| moved_v6(host.overflowing_add(*step))));
        by_crate("step down IPv6", || pairs(rounds, &v6s, &steps, |host, step| moved_v6(host.overflowing_sub(*step))));
        let walk_v4 = v4((Ipv4Addr::new(192, 0, 2, 0), 24));
        let walk_v6 = v6((Ipv6Addr::from(0x2001_0db8u128 << 96), 120));
        let sum_v4 = |sum, network: &Ipv4Cidr| network.iter().addresses().fold(sum, |sum, it| mixed(sum, it.number()));
        let sum_v6 = |sum, network: &Ipv6Cidr| network.iter().addresses().fold(sum, |sum, it| mixed(sum, it.number()));
        let sum_ip = |sum, network: &IpCidr| network.iter().addresses().fold(sum, |sum, it| mixed(sum, it.number()));
        by_crate("walk IPv4", || time(rounds, 256, |rounds| (0..rounds).fold(0, |sum, _| sum_v4(sum, black_box(&walk_v4)))));
        by_crate("walk IPv6", || time(rounds, 256, |rounds| (0..rounds).fold(0, |sum, _| sum_v6(sum, black_box(&walk_v6)))));
        let both = [IpCidr::V4(walk_v4), IpCidr::V6(walk_v6)];
        by_crate("walk IpCidr", || time(rounds, 512, |rounds| (0..rounds).fold(0, |sum, _| black_box(&both).iter().fold(sum, sum_ip))));
    }

    pub fn all(rounds: u32) {
        strings(rounds);
        networks(rounds);
        steps(rounds);
    }
}
