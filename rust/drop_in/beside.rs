//! beside SEED COUNT: random texts are read by the crate `cidr` (`real`), by the edition over `core::net` (`net`) and by the
//! written crate over its own addresses (`own`). It prints each difference that `as_documented` does not know.
use std::fmt::{Debug, Display, Write};
use std::str::FromStr;

/// Numbers without a pattern (splitmix64).
struct Random(u64);

impl Random {
    fn next(&mut self) -> u64 {
        self.0 = self.0.wrapping_add(0x9e37_79b9_7f4a_7c15);
        let mut z = self.0;
        z = (z ^ (z >> 30)).wrapping_mul(0xbf58_476d_1ce4_e5b9);
        z = (z ^ (z >> 27)).wrapping_mul(0x94d0_49bb_1331_11eb);
        z ^ (z >> 31)
    }

    fn below(&mut self, count: u64) -> u64 {
        self.next() % count
    }

    fn one_of<'a>(&mut self, texts: &[&'a str]) -> &'a str {
        texts[self.below(texts.len() as u64) as usize]
    }
}

/// Four octets, now and then in a form that only the loose parsers take.
fn ipv4(r: &mut Random) -> String {
    let count = if r.below(12) == 0 { r.below(6) } else { 4 };
    let mut parts = Vec::new();
    for _ in 0..count {
        let octet = [0, 255, r.below(10), r.below(300), r.below(256)][r.below(5) as usize];
        parts.push(match r.below(40) {
            0 => format!("0{octet}"),
            1 => format!("+{octet}"),
            2 => format!("0x{octet:x}"),
            3 => format!("{octet:o}"),
            4 => format!("0X{octet:X}"),
            5 => String::new(),
            _ => octet.to_string(),
        });
    }
    if r.below(30) == 0 {
        parts.push(r.next().to_string());
    }
    parts.join(".")
}

/// Eight groups, some of them left out, now and then with four octets at the end.
fn ipv6(r: &mut Random) -> String {
    let mut groups: Vec<String> = (0..8)
        .map(|_| match r.below(5) {
            0 | 1 => "0".to_string(),
            2 => format!("{:x}", r.below(16)),
            3 => format!("{:04x}", r.below(65536)),
            _ => format!("{:X}", r.below(65536)),
        })
        .collect();
    if r.below(6) == 0 {
        groups.truncate(6);
        groups.push(ipv4(r));
    }
    if r.below(2) == 0 {
        let from = r.below(groups.len() as u64) as usize;
        let to = (from + 1 + r.below(4) as usize).min(groups.len());
        return format!("{}::{}", groups[..from].join(":"), groups[to..].join(":"));
    }
    match r.below(25) {
        0 => format!("::ffff:{}", ipv4(r)),
        1 => groups.join(":") + "%1",
        _ => groups.join(":"),
    }
}

/// A network or a host, or what is nearly one.
fn text(r: &mut Random) -> String {
    let mut text = match r.below(20) {
        0 => "any".to_string(),
        1..=9 => ipv4(r),
        _ => ipv6(r),
    };
    match r.below(10) {
        0 | 1 => {}
        2 => text += &format!("/{}", r.below(300)),
        3 => text += r.one_of(&["/", "//8", "/+8", "/08", "/-1", "/ 8", "/8 ", "/+", "/0x8", "/256", "/99999999999", "/+0032", "/\u{661}"]),
        _ => text += &format!("/{}", r.below(if text.contains(':') { 130 } else { 34 })),
    }
    if r.below(4) == 0 {
        if let Ok(host) = text.parse::<real::IpInet>() {
            text = format!("{:#}", host.network());
        }
    }
    for _ in 0..[0, 0, 0, 0, 1, 1, 2][r.below(7) as usize] {
        let mut marks: Vec<char> = text.chars().collect();
        if !marks.is_empty() {
            let place = r.below(marks.len() as u64) as usize;
            match r.below(3) {
                0 => drop(marks.remove(place)),
                1 => marks.insert(place, r.one_of(&["0", "1", "9", "a", "F", ":", ".", "/", "+", "-", "x", "X", " ", "%", "g", "é", "\0"]).chars().next().unwrap()),
                _ => marks.swap(place, (place + 1) % text.chars().count()),
            }
        }
        text = marks.into_iter().collect();
    }
    text
}

/// What a result is, as a text.
fn shown<T: Display + Debug, E: Display + Debug>(result: &Result<T, E>) -> String {
    match result {
        Ok(value) => format!("ok {value} {value:#} {value:?}"),
        Err(e) => format!("err {e} {e:?}"),
    }
}

fn read<T: FromStr + Display + Debug>(text: &str) -> String
where
    T::Err: Display + Debug,
{
    shown(&text.parse::<T>())
}

/// The text of the crate as the written crate over its own addresses has it: one message for each length that is no number,
/// std's errors of addresses by their messages alone, and no form by `{:#}`.
fn as_documented(text: &str) -> String {
    let mut text = text.to_string();
    for message in ["invalid digit found in string", "number too large to fit in target type", "cannot parse integer from empty string"] {
        text = text.replace(message, "invalid length text");
    }
    for (std, own) in [("Ipv4", "IPv4 address"), ("Ipv6", "IPv6 address"), ("Ip", "IP address")] {
        text = text.replace(&format!("AddrParseError({std})"), &format!("invalid {own} syntax"));
    }
    text
}

fn without_alternate(text: &str) -> String {
    match text.strip_prefix("ok ").map(|rest| rest.split(' ').collect::<Vec<_>>()) {
        Some(words) if words.len() == 3 => format!("ok {} {}", words[0], words[2]),
        _ => text.to_string(),
    }
}

#[derive(Default)]
struct Counts {
    compared: u64,
    different: u64,
}

impl Counts {
    fn compare(&mut self, what: &str, text: &str, real: &str, net: &str, own: &str) {
        self.compared += 1;
        let wanted = without_alternate(&as_documented(real));
        if real != net || wanted != without_alternate(own) {
            self.different += 1;
            if self.different < 10 {
                println!("{what} {text:?}\n real {real}\n net  {net}\n own  {own}");
            }
        }
    }
}

macro_rules! types {
    ($counts:ident, $text:expr, $($name:ident),*) => {
        $($counts.compare(stringify!($name), $text, &read::<real::$name>($text), &read::<net::$name>($text), &read::<own::$name>($text));)*
    };
}

macro_rules! parsers {
    ($counts:ident, $text:expr, $($name:ident),*) => {
        $($counts.compare(
            stringify!($name),
            $text,
            &shown(&real::parsers::$name($text)),
            &shown(&net::parsers::$name($text)),
            &shown(&own::parsers::$name($text)),
        );)*
    };
}

/// What a host and its network tell, and a pair with another host, as a text.
macro_rules! told {
    ($cidr:ident, $text:expr, $other:expr, $step:expr, $len:expr) => {{
        let mut out = String::new();
        if let Ok(host) = $text.parse::<$cidr::IpInet>() {
            let network = host.network();
            write!(out, "{} {network} {} {} {} ", host.address(), host.first(), host.last(), host.mask()).unwrap();
            write!(out, "{:?} {} {} ", host.family(), host.network_length(), host.is_host_address()).unwrap();
            write!(out, "{:?} {:?} ", host.next(), host.previous()).unwrap();
            write!(out, "{:?} {:?} ", host.overflowing_add($step), host.overflowing_sub($step)).unwrap();
            write!(out, "{} {} {} ", network.first_address(), network.last_address(), network.mask()).unwrap();
            write!(out, "{} {} ", network.is_host_address(), network.contains(&host.address())).unwrap();
            write!(out, "{:?} {:?} ", $cidr::IpCidr::new(host.address(), $len), $cidr::IpInet::new(host.address(), $len)).unwrap();
            write!(out, "{:?} ", $cidr::AnyIpCidr::from(network)).unwrap();
            if let Ok(other) = $other.parse::<$cidr::IpInet>() {
                write!(out, "{:?} {} ", host.cmp(&other), host.contains(&other.address())).unwrap();
                let pair_of = |len| $cidr::IpInetPair::new_from_addresses(host.address(), other.address(), len).ok();
                write!(out, "{} ", pair_of($len % 33) == pair_of($len % 33 / 2)).unwrap();
                write!(out, "{:?} {} ", network.cmp(&other.network()), network.contains(&other.address())).unwrap();
                match $cidr::IpInetPair::new(host, other) {
                    Ok(pair) => {
                        write!(out, "{pair} {} {} ", pair.network(), pair.network_length()).unwrap();
                        if host <= other {
                            let mut walk = pair.iter();
                            write!(out, "{:?} {:?} {:?} ", walk.size_hint(), walk.next(), walk.next_back()).unwrap();
                            write!(out, "{:?} {:?} {:?} ", walk.next(), walk.next_back(), walk.size_hint()).unwrap();
                            let mut walk = pair.iter().addresses();
                            write!(out, "{:?} {:?} {:?} ", walk.next(), walk.next_back(), walk.size_hint()).unwrap();
                        }
                    }
                    Err(e) => write!(out, "{e} {e:?} ").unwrap(),
                }
            }
        }
        out
    }};
}

fn main() {
    let words: Vec<u64> = std::env::args().skip(1).map(|word| word.parse().unwrap()).collect();
    let (mut r, mut counts, mut hosts) = (Random(words[0]), Counts::default(), 0);
    for _ in 0..words[1] {
        let text = text(&mut r);
        let text = text.as_str();
        types!(counts, text, Ipv4Cidr, Ipv6Cidr, IpCidr, AnyIpCidr, Ipv4Inet, Ipv6Inet, IpInet);
        parsers!(
            counts, text, parse_loose_ip, parse_loose_ipv4, parse_short_ip_cidr, parse_short_ipv4_cidr, parse_short_any_ip_cidr,
            parse_short_ip_address_as_cidr, parse_short_ipv4_address_as_cidr
        );
        if let Ok(host) = text.parse::<real::IpInet>() {
            hosts += 1;
            let (further, _) = host.overflowing_add(u128::from(r.next()) >> r.below(64));
            let other = if r.below(3) == 0 { self::text(&mut r) } else { format!("{further:#}") };
            let wide = u128::from(r.next()) << 64 | u128::from(r.next());
            let step = [wide, wide >> 64, u128::from(r.below(300)), 1 << r.below(128)][r.below(4) as usize];
            let len = r.below(140) as u8;
            let real = told!(real, text, other, step, len);
            counts.compare("host", text, &real, &told!(net, text, other, step, len), &told!(own, text, other, step, len));
        }
    }
    println!("{} texts, {hosts} of them hosts: {} comparisons, {} differences", words[1], counts.compared, counts.different);
    std::process::exit(i32::from(counts.different > 0));
}
