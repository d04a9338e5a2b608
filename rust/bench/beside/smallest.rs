//! The smallest table with the same forwarding, in plain Rust, over tables that look like those of routers and of
//! GeoIP: what `cidr_forwarding` is measured beside.
//!
//! `smallest measure` prints a line for each table with tabs between: its name, its rows, and for tables without holes
//! and with holes the rows left and the least milliseconds of five turns. `smallest measure NAME` does so of one table,
//! `smallest rows NAME` only makes it and prints how many rows it has, and `smallest table NAME` writes them, one a line. `smallest compare N` compares N random tables of few rows with a count by trial of all values.
//! `smallest count` writes how many rows are left of each table of standard input: its rows in ascending order, the bits
//! of a network (`-` for none) and a number in each line, and then a line `smallest` or `holes`.
//!
//! Two passes over the ascending rows. The first leaves a token for each network that it reaches, the second takes them
//! from the end. Networks with one network in them are passed in one step.

use std::fmt::Write as _;
use std::net::{Ipv4Addr, Ipv6Addr};
use std::time::Instant;

/// No value. Rows of a table have none only where it has holes.
const NONE: u32 = u32::MAX;

/// A network with a value: its first bits from the highest one on, and how many they are.
#[derive(Clone, Copy, Debug, PartialEq, Eq, PartialOrd, Ord)]
struct Row {
    bits: u128,
    len: u8,
    value: u32,
}

fn bit(bits: u128, index: u8) -> bool {
    bits >> (127 - index) & 1 == 1
}

/// What the first pass leaves of a network.
enum Token {
    /// One value throughout.
    Even,
    /// The halves have candidates in common.
    Shared,
    /// They have none: those of one half are kept, and the first one of either.
    Apart { lower: bool, count: usize, first_low: u32, first_high: u32 },
    /// The rows share `shared` bits, at least two more than the network: whether its value is a candidate there, or
    /// else the first one.
    Far { shared: u8, first: u32, keeps: bool },
}

struct Passes {
    holes: bool,
    tokens: Vec<Token>,
    /// The candidates of the networks that the first pass is in, ascending for each.
    candidates: Vec<u32>,
    kept: Vec<u32>,
    out: Vec<Row>,
}

/// The value of the row of the network itself, or what it inherits, and the rows inside it.
fn own(rows: &[Row], depth: u8, inherited: u32) -> (u32, &[Row]) {
    match rows.split_first() {
        Some((row, rest)) if row.len == depth => (row.value, rest),
        _ => (inherited, rows),
    }
}

/// How many bits all rows share.
fn shared(rest: &[Row]) -> u8 {
    let (first, last) = (rest[0], rest[rest.len() - 1]);
    ((first.bits ^ last.bits).leading_zeros() as u8).min(first.len).min(last.len)
}

impl Passes {
    fn measure(&mut self, rows: &[Row], depth: u8, inherited: u32) {
        let (own, rest) = own(rows, depth, inherited);
        if rest.is_empty() {
            self.tokens.push(Token::Even);
            self.candidates.push(own);
            return;
        }
        let shared = shared(rest);
        let start = self.candidates.len();
        if shared >= depth + 2 {
            self.measure(rest, shared, own);
            let (first, keeps) = (self.candidates[start], self.candidates[start..].contains(&own));
            self.tokens.push(Token::Far { shared, first, keeps });
            self.candidates.truncate(start);
            self.candidates.push(own);
            return;
        }
        let (low, high) = rest.split_at(rest.partition_point(|row| !bit(row.bits, depth)));
        self.measure(low, depth + 1, own);
        let middle = self.candidates.len();
        self.measure(high, depth + 1, own);
        self.join(start, middle);
    }

    /// Puts the candidates of a network in place of those of its halves.
    fn join(&mut self, start: usize, middle: usize) {
        let common = {
            let (low, high) = self.candidates[start..].split_at(middle - start);
            let (mut i, mut j, mut common) = (0, 0, Vec::new());
            while i < low.len() && j < high.len() {
                match low[i].cmp(&high[j]) {
                    std::cmp::Ordering::Less => i += 1,
                    std::cmp::Ordering::Greater => j += 1,
                    std::cmp::Ordering::Equal => {
                        common.push(low[i]);
                        i += 1;
                        j += 1;
                    }
                }
            }
            common
        };
        if !common.is_empty() {
            self.tokens.push(Token::Shared);
            self.candidates.truncate(start);
            self.candidates.extend(common);
            return;
        }
        let (low, high) = self.candidates[start..].split_at(middle - start);
        let lower = low.len() <= high.len();
        let fewer = if lower { low } else { high };
        self.tokens.push(Token::Apart {
            lower,
            count: fewer.len(),
            first_low: low[0],
            first_high: high[0],
        });
        self.kept.extend_from_slice(fewer);
        if !self.holes && self.candidates[start..].contains(&NONE) {
            self.candidates.truncate(start);
            self.candidates.push(NONE);
        } else {
            self.candidates[start..].sort_unstable();
        }
    }

    /// Writes the rows inside a network whose value is one of its candidates, the last one first.
    fn place(&mut self, rows: &[Row], depth: u8, network: u128, inherited: u32, value: u32) {
        let (own, rest) = own(rows, depth, inherited);
        let (low, high) = match self.tokens.pop().expect("a token for each network") {
            Token::Even => return,
            Token::Far { shared, first, keeps } => {
                let inside = rest[0].bits & !u128::MAX.checked_shr(shared as u32).unwrap_or(0);
                let below = if keeps { value } else { first };
                self.place(rest, shared, inside, own, below);
                if !keeps {
                    self.out.push(Row { bits: inside, len: shared, value: first });
                }
                return;
            }
            Token::Shared => (value, value),
            Token::Apart { lower, count, first_low, first_high } => {
                let start = self.kept.len() - count;
                let here = self.kept[start..].binary_search(&value).is_ok();
                self.kept.truncate(start);
                if here == lower { (value, first_high) } else { (first_low, value) }
            }
        };
        let (lows, highs) = rest.split_at(rest.partition_point(|row| !bit(row.bits, depth)));
        let upper = network | 1 << (127 - depth);
        self.place(highs, depth + 1, upper, own, high);
        if high != value {
            self.out.push(Row { bits: upper, len: depth + 1, value: high });
        }
        self.place(lows, depth + 1, network, own, low);
        if low != value {
            self.out.push(Row { bits: network, len: depth + 1, value: low });
        }
    }
}

/// The rows of a smallest table with the same forwarding. The rows that are given ascend.
fn smallest(rows: &[Row], holes: bool) -> Vec<Row> {
    let mut passes = Passes {
        holes,
        tokens: Vec::new(),
        candidates: Vec::new(),
        kept: Vec::new(),
        out: Vec::new(),
    };
    passes.measure(rows, 0, NONE);
    let root = if passes.candidates.contains(&NONE) { NONE } else { passes.candidates[0] };
    passes.place(rows, 0, 0, NONE, root);
    if root != NONE {
        passes.out.push(Row { bits: 0, len: 0, value: root });
    }
    passes.out.reverse();
    passes.out
}

// ---- tables

/// Numbers that look random.
struct Numbers(u64);

impl Numbers {
    fn next(&mut self) -> u64 {
        self.0 ^= self.0 << 13;
        self.0 ^= self.0 >> 7;
        self.0 ^= self.0 << 17;
        self.0.wrapping_mul(0x2545_f491_4f6c_dd1d) >> 11
    }

    fn below(&mut self, bound: u64) -> u64 {
        self.next() % bound
    }

    /// A next hop: the first ones have most routes.
    fn hop(&mut self, hops: u64) -> u32 {
        self.below(hops).min(self.below(hops)).min(self.below(hops)) as u32
    }
}

fn ascending(mut rows: Vec<Row>, count: usize) -> Vec<Row> {
    rows.sort_unstable();
    rows.dedup_by_key(|row| (row.bits, row.len));
    rows.truncate(count);
    rows
}

/// Blocks of IPv4 that are announced whole and in parts, most of these as /24, and as often as `local` of a hundred by
/// the next hop of their block.
fn routes(count: usize, hops: u64, local: u64, default: bool, numbers: &mut Numbers) -> Vec<Row> {
    let mut rows = Vec::new();
    if default {
        rows.push(Row { bits: 0, len: 0, value: 0 });
    }
    while rows.len() < count + count / 20 {
        let len = 12 + numbers.below(11) as u8;
        let bits = (numbers.below(224 << (len - 8)) as u128 + (1 << (len - 8))) << (128 - len);
        let hop = numbers.hop(hops);
        if numbers.below(3) > 0 {
            rows.push(Row { bits, len, value: hop });
        }
        let room = 1u64 << (24 - len);
        let mut at = numbers.below(room);
        for _ in 0..1 + numbers.below(room.min(128)) {
            let inner = match numbers.below(100) {
                0..=62 => 24,
                63..=73 => 23,
                74..=86 => 22,
                87..=91 => 21,
                92..=96 => 20,
                _ => 19,
            }
            .max(len + 1);
            let size = 1 << (24 - inner);
            at = at.next_multiple_of(size) % room;
            let value = if numbers.below(100) < local { hop } else { numbers.hop(hops) };
            rows.push(Row { bits: bits | (at as u128) << 104, len: inner, value });
            at = (at + size + if numbers.below(4) == 0 { numbers.below(8) } else { 0 }) % room;
        }
    }
    ascending(rows, count)
}

/// Ranges of IPv4 one behind the other, each in networks of one country.
fn countries(count: usize, countries: u64, numbers: &mut Numbers) -> Vec<Row> {
    let (mut rows, mut at, mut country) = (Vec::new(), 1u64 << 24, 0);
    while rows.len() < count && at < 224 << 24 {
        let end = at + (256 << numbers.below(8)) * (1 + numbers.below(7));
        if numbers.below(10) > 0 {
            if numbers.below(2) == 0 {
                country = numbers.below(countries).min(numbers.below(countries)) as u32;
            }
            while at < end {
                let size = at.trailing_zeros().min((end - at).ilog2());
                rows.push(Row { bits: (at as u128) << 96, len: 32 - size as u8, value: country });
                at += 1 << size;
            }
        }
        at = end;
    }
    ascending(rows, usize::MAX)
}

/// Blocks of IPv6 of some length up to /40, with networks of up to /48 in them.
fn routes_of_ipv6(count: usize, hops: u64, numbers: &mut Numbers) -> Vec<Row> {
    let mut rows = Vec::new();
    while rows.len() < count {
        let len = [29, 32, 32, 36, 40][numbers.below(5) as usize];
        let random = (numbers.next() as u128) << 72 | (numbers.next() as u128) << 20;
        let bits = (2 << 124 | random & (u128::MAX >> 4)) & !(u128::MAX >> len);
        let hop = numbers.below(hops) as u32;
        rows.push(Row { bits, len, value: hop });
        for _ in 0..numbers.below(12) {
            let inner = [48u8, 48, 48, 44, 40][numbers.below(5) as usize].max(len);
            let inside = (numbers.next() as u128) << 80 & (u128::MAX >> len) & !(u128::MAX >> inner);
            let value = if numbers.below(10) < 7 { hop } else { numbers.below(hops) as u32 };
            rows.push(Row { bits: bits | inside, len: inner, value });
        }
    }
    ascending(rows, count)
}

/// As many values as rows, one behind the other.
fn values(count: u32) -> Vec<Row> {
    (0..count).map(|value| Row { bits: (value as u128) << 104, len: 24, value }).collect()
}

/// The tables that are measured. Two more, `a million routes` and `more routes of IPv6`, are for `forwarding.rs`.
const NAMES: [&str; 8] = [
    "routes, 4 next hops",
    "routes, 16 next hops",
    "routes, 64 next hops",
    "routes, half local",
    "routes with a default",
    "countries",
    "routes of IPv6",
    "different values",
];

fn table(name: &str) -> Vec<Row> {
    let mut numbers = Numbers(12_345_678_912_345);
    match name {
        "routes, 4 next hops" => routes(880_000, 4, 80, false, &mut numbers),
        "routes, 16 next hops" => routes(880_000, 16, 80, false, &mut numbers),
        "routes, 64 next hops" => routes(880_000, 64, 80, false, &mut numbers),
        "routes, half local" => routes(880_000, 16, 50, false, &mut numbers),
        "routes with a default" => routes(880_000, 16, 80, true, &mut numbers),
        "countries" => countries(450_000, 240, &mut numbers),
        "routes of IPv6" => routes_of_ipv6(200_000, 16, &mut numbers),
        "a million routes" => routes(1_000_000, 64, 80, false, &mut numbers),
        "more routes of IPv6" => routes_of_ipv6(220_000, 16, &mut numbers),
        _ => values(900_000),
    }
}

fn text(name: &str, row: &Row) -> String {
    let mut text = String::new();
    if name.ends_with("IPv6") {
        let _ = write!(text, "{}", Ipv6Addr::from(row.bits));
    } else {
        let _ = write!(text, "{}", Ipv4Addr::from((row.bits >> 96) as u32));
    }
    let _ = write!(text, "/{} {}", row.len, row.value);
    text
}

fn measure(part: &str) {
    for name in NAMES.into_iter().filter(|name| name.contains(part)) {
        let rows = table(name);
        print!("{name}\t{}", rows.len());
        for holes in [false, true] {
            let (mut least, mut left) = (f64::MAX, 0);
            for _ in 0..5 {
                let start = Instant::now();
                left = smallest(&rows, holes).len();
                least = least.min(start.elapsed().as_secs_f64());
            }
            print!("\t{left}\t{:.1}", 1000.0 * least);
        }
        println!();
    }
}

// ---- a count by trial

/// The fewest rows in a network and for it, by the value that it inherits: 0 to 3, or 4 where that is none.
fn fewest(rows: &[Row], depth: u8, inherited: u32, holes: bool) -> [u32; 5] {
    let (own, rest) = own(rows, depth, inherited);
    if rest.is_empty() {
        let of_row = if holes || own != NONE { 1 } else { 1_000_000 };
        return std::array::from_fn(|value| if value as u32 == own.min(4) { 0 } else { of_row });
    }
    let (low, high) = rest.split_at(rest.partition_point(|row| !bit(row.bits, depth)));
    let (low, high) = (fewest(low, depth + 1, own, holes), fewest(high, depth + 1, own, holes));
    let values = if holes { 5 } else { 4 };
    let row = 1 + (0..values).map(|value| low[value] + high[value]).min().unwrap_or(0);
    std::array::from_fn(|value| row.min(low[value] + high[value]))
}

fn look_up(rows: &[Row], address: u128) -> u32 {
    let holds = |row: &&Row| row.len == 0 || (row.bits ^ address) >> (128 - row.len) == 0;
    rows.iter().filter(holds).max_by_key(|row| row.len).map_or(NONE, |row| row.value)
}

fn compare(count: u64) {
    let mut numbers = Numbers(88_172_645_463_325_252);
    for _ in 0..count {
        let front = numbers.below(90) as u8;
        let bits = (numbers.next() as u128) << 64 | numbers.next() as u128;
        let rows = (0..numbers.below(14)).map(|_| {
            let len = front + numbers.below(7) as u8;
            let behind = (numbers.next() as u128) << 75;
            let kept = !u128::MAX.checked_shr(len as u32).unwrap_or(0);
            let shared = !(u128::MAX >> front);
            let bits = (bits & shared | behind & !shared) & kept;
            Row { bits, len, value: numbers.below(4) as u32 }
        });
        let rows = ascending(rows.collect(), usize::MAX);
        for holes in [false, true] {
            let out = smallest(&rows, holes);
            assert_eq!(out.len() as u32, fewest(&rows, 0, NONE, holes)[4], "{rows:?}");
            for row in rows.iter().chain(&out) {
                let (first, last) = (row.bits, row.bits | u128::MAX.checked_shr(row.len as u32).unwrap_or(0));
                for address in [first, last, first.wrapping_sub(1), last.wrapping_add(1)] {
                    assert_eq!(look_up(&rows, address), look_up(&out, address), "{rows:?}");
                }
            }
        }
    }
    println!("{count} tables, each without and with holes: no table is smaller");
}

/// Writes how many rows are left of each table of standard input.
fn count() {
    let mut rows = Vec::new();
    for line in std::io::stdin().lines() {
        let line = line.expect("a line");
        let Some((digits, value)) = line.split_once(' ') else {
            println!("{}", smallest(&rows, line == "holes").len());
            rows.clear();
            continue;
        };
        let digits = digits.trim_matches('-');
        let number = u128::from_str_radix(digits, 2).unwrap_or(0);
        let len = digits.len() as u8;
        let bits = number.checked_shl(128 - len as u32).unwrap_or(0);
        rows.push(Row { bits, len, value: value.parse().expect("a number") });
    }
}

fn main() {
    let words: Vec<String> = std::env::args().skip(1).collect();
    match words.iter().map(String::as_str).collect::<Vec<_>>()[..] {
        ["measure"] => measure(""),
        ["measure", name] => measure(name),
        ["rows", name] => println!("{}", table(name).len()),
        ["table", name] => {
            for row in table(name) {
                println!("{}", text(name, &row));
            }
        }
        ["count"] => count(),
        ["compare", count] => compare(count.parse().expect("a number of tables")),
        _ => eprintln!("smallest measure | smallest table NAME | smallest compare N | smallest count"),
    }
}
