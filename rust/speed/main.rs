//! speed SIDE ROW | speed TIMES: times calls of the crate `cidr` (`theirs`) and of the written one (`ours`), by turns.
//!
//! With a SIDE and a ROW it makes that row's calls once and prints nothing, for counts of instructions: `none` in place of
//! a side only makes what the calls are made with.
use std::fmt::Write;
use std::hint::black_box;
use std::time::Instant;

/// How many calls a row makes.
const CALLS: usize = 4096;

/// What is printed to: no allocation is measured.
struct Line {
    bytes: [u8; 128],
    len: usize,
}

impl Write for Line {
    #[inline]
    fn write_str(&mut self, text: &str) -> std::fmt::Result {
        let end = self.len + text.len();
        self.bytes.get_mut(self.len..end).ok_or(std::fmt::Error)?.copy_from_slice(text.as_bytes());
        self.len = end;
        Ok(())
    }
}

/// The length of what `value` is printed as.
#[inline]
fn printed(line: &mut Line, value: impl std::fmt::Display) -> usize {
    line.len = 0;
    write!(line, "{value}").unwrap();
    black_box(&line);
    line.len
}

/// Numbers without a pattern (splitmix64).
struct Random(u64);

impl Random {
    fn next(&mut self) -> u64 {
        self.0 = self.0.wrapping_add(0x9e37_79b9_7f4a_7c15);
        let mut z = self.0;
        z = (z ^ (z >> 30)).wrapping_mul(0xbf58_476d_1ce4_e5b9);
        z = (z ^ (z >> 27)).wrapping_mul(0x94d0_49bb_1331_11eb);
        z ^ (z >> 31)
    }
}

/// Hosts of both families, as strings.
struct Texts {
    hosts4: Vec<String>,
    hosts6: Vec<String>,
}

fn texts() -> Texts {
    let mut random = Random(7);
    let (mut hosts4, mut hosts6) = (Vec::new(), Vec::new());
    for i in 0..CALLS {
        let (address, other) = (random.next() as u32, random.next() % 24);
        let len = if i % 8 == 0 { 32 } else { 8 + other };
        hosts4.push(format!("{}/{len}", std::net::Ipv4Addr::from(address)));
        let bits = u128::from(random.next()) << 64 | u128::from(random.next());
        let bits = match i % 4 {
            0 => bits,
            1 => bits & !(0xffff_ffff_ffff << 16),
            2 => (bits >> 96 << 96) | (bits & 0xffff),
            _ => bits & !(0xffff_ffff << 64),
        };
        let len = if i % 8 == 0 { 128 } else { 32 + random.next() % 96 };
        hosts6.push(format!("{}/{len}", std::net::Ipv6Addr::from(bits)));
    }
    Texts { hosts4, hosts6 }
}

macro_rules! side {
    ($side:ident, $cidr:ident) => {
        mod $side {
            use super::*;
            use $cidr::{AnyIpCidr, IpCidr, Ipv4Cidr, Ipv4Inet, Ipv6Cidr, Ipv6Inet};

            pub struct Data {
                texts4: Vec<String>,
                texts6: Vec<String>,
                texts: Vec<String>,
                hosts4: Vec<Ipv4Inet>,
                hosts6: Vec<Ipv6Inet>,
                networks4: Vec<Ipv4Cidr>,
                networks6: Vec<Ipv6Cidr>,
                networks: Vec<IpCidr>,
            }

            pub fn data(texts: &Texts) -> Data {
                let hosts4: Vec<Ipv4Inet> = texts.hosts4.iter().map(|text| text.parse().unwrap()).collect();
                let hosts6: Vec<Ipv6Inet> = texts.hosts6.iter().map(|text| text.parse().unwrap()).collect();
                let networks4: Vec<Ipv4Cidr> = hosts4.iter().map(|host| host.network()).collect();
                let networks6: Vec<Ipv6Cidr> = hosts6.iter().map(|host| host.network()).collect();
                let texts4: Vec<String> = networks4.iter().map(|network| network.to_string()).collect();
                let texts6: Vec<String> = networks6.iter().map(|network| network.to_string()).collect();
                let either = |i: usize| if i % 2 == 0 { &texts4[i] } else { &texts6[i] };
                let networks = (0..CALLS).map(|i| either(i).parse().unwrap()).collect();
                let texts = (0..CALLS).map(|i| either(i).clone()).collect();
                Data { texts4, texts6, texts, hosts4, hosts6, networks4, networks6, networks }
            }

            /// Makes the calls of a row, and returns a sum of what they return, which is the same on both sides.
            #[inline(never)]
            pub fn run(row: &str, d: &Data) -> usize {
                let mut line = Line { bytes: [0; 128], len: 0 };
                match row {
                    "parse_v4" => d.texts4.iter().map(|t| black_box(t.as_str()).parse::<Ipv4Cidr>().is_ok() as usize).sum(),
                    "parse_v6" => d.texts6.iter().map(|t| black_box(t.as_str()).parse::<Ipv6Cidr>().is_ok() as usize).sum(),
                    "parse_any" => d.texts.iter().map(|t| black_box(t.as_str()).parse::<AnyIpCidr>().is_ok() as usize).sum(),
                    "refuse_v6_as_v4" => d.texts6.iter().map(|t| black_box(black_box(t.as_str()).parse::<Ipv4Cidr>()).is_err() as usize).sum(),
                    "refuse_v4_as_v6" => d.texts4.iter().map(|t| black_box(black_box(t.as_str()).parse::<Ipv6Cidr>()).is_err() as usize).sum(),
                    "print_v4" => d.networks4.iter().map(|n| printed(&mut line, black_box(n))).sum(),
                    "print_v6" => d.networks6.iter().map(|n| printed(&mut line, black_box(n))).sum(),
                    "print_host_v6" => d.hosts6.iter().map(|h| printed(&mut line, black_box(h))).sum(),
                    "to_string_v4" => d.networks4.iter().map(|n| black_box(n).to_string().len()).sum(),
                    "new_v4" => d.hosts4.iter().map(|h| black_box(Ipv4Cidr::new(black_box(h.address()), black_box(24))).is_ok() as usize).sum(),
                    "new_v6" => d.hosts6.iter().map(|h| black_box(Ipv6Cidr::new(black_box(h.address()), black_box(48))).is_ok() as usize).sum(),
                    "contains_v4" => (0..CALLS).map(|i| black_box(&d.networks4[i]).contains(&black_box(d.hosts4[i ^ (i & 1)].address())) as usize).sum(),
                    "contains_v6" => (0..CALLS).map(|i| black_box(&d.networks6[i]).contains(&black_box(d.hosts6[i ^ (i & 1)].address())) as usize).sum(),
                    "cmp_v4" => (1..CALLS).map(|i| black_box(&d.networks4[i]).cmp(black_box(&d.networks4[i - 1])) as usize & 3).sum(),
                    "cmp_v6" => (1..CALLS).map(|i| black_box(&d.networks6[i]).cmp(black_box(&d.networks6[i - 1])) as usize & 3).sum(),
                    "sort_either" => {
                        let mut sorted = d.networks.clone();
                        sorted.sort_unstable();
                        black_box(&sorted).len()
                    }
                    "last_address_v4" => d.networks4.iter().map(|n| black_box(black_box(n).last_address()).is_a() as usize).sum(),
                    "last_address_v6" => d.networks6.iter().map(|n| black_box(black_box(n).last_address()).is_a() as usize).sum(),
                    "step_v4" => d.hosts4.iter().map(|h| black_box(*h).overflowing_add(black_box(1000)).1 as usize).sum(),
                    "step_v6" => d.hosts6.iter().map(|h| black_box(*h).overflowing_add(black_box(1000)).1 as usize).sum(),
                    "walk_v4" => {
                        let network: Ipv4Cidr = black_box("10.1.0.0/20").parse().unwrap();
                        network.iter().addresses().fold(0, |n, address| n + black_box(address).is_a() as usize)
                    }
                    "walk_v6" => {
                        let network: Ipv6Cidr = black_box("2001:db8::/116").parse().unwrap();
                        network.iter().fold(0, |n, host| n + (black_box(host).network_length() == 116) as usize)
                    }
                    _ => panic!("no row {row}"),
                }
            }
        }
    };
}

/// Reads nothing of a value, so that its making alone is measured.
trait IsA {
    #[inline]
    fn is_a(&self) -> bool {
        true
    }
}

impl<T> IsA for T {}

side!(theirs, real);
side!(ours, cidr);

const ROWS: [&str; 22] = [
    "parse_v4", "parse_v6", "parse_any", "refuse_v6_as_v4", "refuse_v4_as_v6", "print_v4", "print_v6", "print_host_v6", "to_string_v4", "new_v4", "new_v6",
    "contains_v4", "contains_v6", "cmp_v4", "cmp_v6", "sort_either", "last_address_v4", "last_address_v6", "step_v4", "step_v6",
    "walk_v4", "walk_v6",
];

/// The least time of many turns, in nanoseconds a call.
fn least(times: &[f64]) -> f64 {
    times.iter().copied().fold(f64::INFINITY, f64::min)
}

fn main() {
    let words: Vec<String> = std::env::args().skip(1).collect();
    let texts = texts();
    let (theirs, ours) = (theirs::data(&texts), ours::data(&texts));
    if let [side, row] = &words[..] {
        black_box(match side.as_str() {
            "theirs" => theirs::run(row, &theirs),
            "ours" => ours::run(row, &ours),
            _ => 0,
        });
        return;
    }
    let turns: usize = words.first().map_or(300, |word| word.parse().unwrap());
    for row in ROWS {
        assert_eq!(theirs::run(row, &theirs), ours::run(row, &ours), "{row}: different answers");
        let mut times = [Vec::new(), Vec::new()];
        for turn in 0..2 * turns {
            let begun = Instant::now();
            black_box(if turn % 2 == 0 { theirs::run(row, &theirs) } else { ours::run(row, &ours) });
            times[turn % 2].push(begun.elapsed().as_nanos() as f64 / CALLS as f64);
        }
        println!("{row} {:.3} {:.3}", least(&times[0]), least(&times[1]));
    }
}
