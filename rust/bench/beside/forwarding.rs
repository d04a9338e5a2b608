//! Longest matches in ways that routers use, over the rows of standard input, `NETWORK NUMBER` one a line, of which ROWS
//! are chosen. The value of a row is its index.
//!
//! - a Poptrie (Asai and Ohara, SIGCOMM 2015): an array by the first 18 bits, in IPv6 20, and below it nodes by six bits,
//!   each with a bit for each inner node and for each leaf that differs from the one before it, which are counted;
//! - arrays by 16 bits and then by eight each.
//!
//! `forwarding input ROWS` writes what `tables` reads: the rows, a million look-up keys of each kind, and `speed`
//! behind each. `forwarding time ROWS` prints lines with tabs between for each way and kind: the name, the nanoseconds of
//! a look-up and a number that hangs on all values, and then for each way the bytes that a row takes and the nanoseconds
//! that it takes to build. Each time is the least of five turns. It fails where a value differs from that of a walk down
//! a `BTreeMap`.
//!
//! Kinds: addresses in random rows (hit) and in none (miss), and 65,536 hosts in random rows, of which the host k is
//! asked as often as 1/k (flows).

use std::collections::BTreeMap;
use std::hint::black_box;
use std::io::{Read, Write};
use std::mem::size_of;
use std::net::{Ipv4Addr, Ipv6Addr};
use std::time::Instant;

/// No value.
const NONE: u32 = u32::MAX;
/// How many keys of each kind are asked.
const ASKED: usize = 1_000_000;
/// How many hosts have flows.
const HOSTS: usize = 65_536;
const TURNS: u32 = 5;
/// The bit of an entry that is no leaf but the index of a node.
const INNER: u32 = 1 << 31;

/// Numbers that look random (SplitMix64).
struct Numbers(u64);

impl Numbers {
    fn next(&mut self) -> u64 {
        self.0 = self.0.wrapping_add(0x9e37_79b9_7f4a_7c15);
        let state = (self.0 ^ self.0 >> 30).wrapping_mul(0xbf58_476d_1ce4_e5b9);
        let state = (state ^ state >> 27).wrapping_mul(0x94d0_49bb_1331_11eb);
        state ^ state >> 31
    }

    fn wide(&mut self) -> u128 {
        u128::from(self.next()) << 64 | u128::from(self.next())
    }

    fn below(&mut self, bound: usize) -> usize {
        (self.next() % bound as u64) as usize
    }
}

/// A network: its first address, and how many bits it has. All addresses have 128 bits here, of which those of IPv4 are
/// the first 32.
type Network = (u128, u32);

/// What is behind the first bits.
fn behind(len: u32) -> u128 {
    u128::MAX.checked_shr(len).unwrap_or(0)
}

/// An address as its family has it.
trait Address: Copy {
    const WIDTH: u32;
    /// By how many bits a Poptrie begins.
    const FIRST: u32;
    fn of(bits: u128) -> Self;
    fn bits(self) -> u128;
    /// The first bits.
    fn first(self, count: u32) -> usize;
    /// Bits from one on, at most eight; those that are missing count as unset.
    fn part(self, from: u32, count: u32) -> usize;
    fn text(self) -> String;
}

impl Address for u32 {
    const WIDTH: u32 = 32;
    const FIRST: u32 = 18;

    fn of(bits: u128) -> u32 {
        (bits >> 96) as u32
    }

    fn bits(self) -> u128 {
        u128::from(self) << 96
    }

    #[inline(always)]
    fn first(self, count: u32) -> usize {
        (self >> (32 - count)) as usize
    }

    #[inline(always)]
    fn part(self, from: u32, count: u32) -> usize {
        (u64::from(self) << 32 << from >> (64 - count)) as usize
    }

    fn text(self) -> String {
        Ipv4Addr::from(self).to_string()
    }
}

impl Address for u128 {
    const WIDTH: u32 = 128;
    const FIRST: u32 = 20;

    fn of(bits: u128) -> u128 {
        bits
    }

    fn bits(self) -> u128 {
        self
    }

    #[inline(always)]
    fn first(self, count: u32) -> usize {
        ((self >> 64) as u64 >> (64 - count)) as usize
    }

    #[inline(always)]
    fn part(self, from: u32, count: u32) -> usize {
        if from + count <= 64 {
            return (((self >> 64) as u64) << from >> (64 - count)) as usize;
        }
        (self << from >> (128 - count)) as usize
    }

    fn text(self) -> String {
        Ipv6Addr::from(self).to_string()
    }
}

// ---- the rows as ranges, of which the others are made

/// The first address of each range, from 0 on, and its value. Neighbours have different values.
struct Ranges {
    starts: Vec<u128>,
    values: Vec<u32>,
}

impl Ranges {
    fn of(rows: &[Network]) -> Ranges {
        let mut ranges = Ranges { starts: vec![0], values: vec![NONE] };
        // The last address and the value of each network that is not passed yet.
        let mut open: Vec<(u128, u32)> = Vec::new();
        for (index, &(first, len)) in rows.iter().enumerate() {
            ranges.close(&mut open, |last| last < first);
            ranges.begin(first, index as u32);
            open.push((first | behind(len), index as u32));
        }
        ranges.close(&mut open, |_| true);
        ranges
    }

    fn close(&mut self, open: &mut Vec<(u128, u32)>, is_passed: impl Fn(u128) -> bool) {
        while let Some(&(last, _)) = open.last() {
            if !is_passed(last) {
                return;
            }
            open.pop();
            if let Some(start) = last.checked_add(1) {
                self.begin(start, open.last().map_or(NONE, |it| it.1));
            }
        }
    }

    fn begin(&mut self, start: u128, value: u32) {
        if self.starts.last() == Some(&start) {
            self.starts.pop();
            self.values.pop();
        }
        if self.values.last() != Some(&value) {
            self.starts.push(start);
            self.values.push(value);
        }
    }

    /// Goes on from a range to that of an address, and tells whether it has all addresses of this network.
    fn go_to(&self, range: &mut usize, first: u128, len: u32) -> bool {
        while self.starts.get(*range + 1).is_some_and(|start| *start <= first) {
            *range += 1;
        }
        !self.starts.get(*range + 1).is_some_and(|start| *start <= first | behind(len))
    }
}

// ---- ways to look up

trait Way<A: Address> {
    fn of(ranges: &Ranges) -> Self;
    fn find(&self, asked: A) -> u32;
    fn bytes(&self) -> usize;
}

/// A node: which of 64 parts have nodes of their own, and which of the others begin with a leaf that differs from the one
/// before it. The nodes of its parts are one behind the other, and so are its leaves.
#[derive(Clone, Copy, Default)]
struct Node {
    inner: u64,
    changes: u64,
    nodes: u32,
    leaves: u32,
}

struct Poptrie {
    first: Vec<u32>,
    nodes: Vec<Node>,
    leaves: Vec<u32>,
}

/// How many of the bits before one are set.
#[inline(always)]
fn before(bits: u64, at: usize) -> u32 {
    (bits & ((1 << at) - 1)).count_ones()
}

/// How many of the bits up to one are set.
#[inline(always)]
fn up_to(bits: u64, at: usize) -> u32 {
    (bits & (2u64 << at).wrapping_sub(1)).count_ones()
}

impl Poptrie {
    /// Fills a node of the network.
    fn fill(&mut self, ranges: &Ranges, at: usize, network: Network, range: &mut usize) {
        let (base, len) = network;
        let mut node = Node { nodes: self.nodes.len() as u32, leaves: self.leaves.len() as u32, ..Node::default() };
        let mut inner = Vec::new();
        let mut leaf = None;
        for part in 0..64 {
            let first = base | part << (122 - len);
            if !ranges.go_to(range, first, len + 6) {
                node.inner |= 1 << part;
                inner.push((first, *range));
            } else if leaf != Some(ranges.values[*range]) {
                node.changes |= 1 << part;
                leaf = Some(ranges.values[*range]);
                self.leaves.push(ranges.values[*range]);
            }
        }
        self.nodes.resize(self.nodes.len() + inner.len(), Node::default());
        self.nodes[at] = node;
        for (index, (first, mut range)) in inner.into_iter().enumerate() {
            self.fill(ranges, node.nodes as usize + index, (first, len + 6), &mut range);
        }
    }
}

impl<A: Address> Way<A> for Poptrie {
    fn of(ranges: &Ranges) -> Poptrie {
        let mut trie = Poptrie { first: Vec::new(), nodes: Vec::new(), leaves: Vec::new() };
        let mut range = 0;
        for part in 0..1u128 << A::FIRST {
            let first = part << (128 - A::FIRST);
            if ranges.go_to(&mut range, first, A::FIRST) {
                trie.first.push(ranges.values[range] & !INNER);
                continue;
            }
            let node = trie.nodes.len();
            trie.first.push(node as u32 | INNER);
            trie.nodes.push(Node::default());
            let mut range = range;
            trie.fill(ranges, node, (first, A::FIRST), &mut range);
        }
        trie
    }

    #[inline(always)]
    fn find(&self, asked: A) -> u32 {
        let entry = self.first[asked.first(A::FIRST)];
        if entry & INNER == 0 {
            return if entry == !INNER { NONE } else { entry };
        }
        let mut node = &self.nodes[(entry & !INNER) as usize];
        let mut from = A::FIRST;
        loop {
            let part = asked.part(from, 6);
            if node.inner >> part & 1 == 0 {
                return self.leaves[(node.leaves + up_to(node.changes, part) - 1) as usize];
            }
            node = &self.nodes[(node.nodes + before(node.inner, part)) as usize];
            from += 6;
        }
    }

    fn bytes(&self) -> usize {
        4 * (self.first.len() + self.leaves.len()) + size_of::<Node>() * self.nodes.len()
    }
}

struct Arrays {
    first: Vec<u32>,
    nodes: Vec<[u32; 256]>,
}

impl Arrays {
    /// The entry of a network: its value, or the array of its parts.
    fn entry(&mut self, ranges: &Ranges, (base, len): Network, range: &mut usize) -> u32 {
        if ranges.go_to(range, base, len) {
            return ranges.values[*range] & !INNER;
        }
        let node = self.nodes.len();
        self.nodes.push([0; 256]);
        for part in 0..256 {
            let entry = self.entry(ranges, (base | (part as u128) << (120 - len), len + 8), range);
            self.nodes[node][part] = entry;
        }
        node as u32 | INNER
    }
}

impl<A: Address> Way<A> for Arrays {
    fn of(ranges: &Ranges) -> Arrays {
        let mut arrays = Arrays { first: Vec::new(), nodes: Vec::new() };
        let mut range = 0;
        for part in 0..1u128 << 16 {
            let entry = arrays.entry(ranges, (part << 112, 16), &mut range);
            arrays.first.push(entry);
        }
        arrays
    }

    #[inline(always)]
    fn find(&self, asked: A) -> u32 {
        let mut entry = self.first[asked.first(16)];
        let mut from = 16;
        while entry & INNER != 0 {
            entry = self.nodes[(entry & !INNER) as usize][asked.part(from, 8)];
            from += 8;
        }
        if entry == !INNER { NONE } else { entry }
    }

    fn bytes(&self) -> usize {
        4 * self.first.len() + 1024 * self.nodes.len()
    }
}

// ---- rows and look-up keys

/// Some of the rows of standard input, in ascending order, and whether they are of IPv6.
fn rows(count: usize, numbers: &mut Numbers) -> (Vec<Network>, bool) {
    let mut text = String::new();
    std::io::stdin().read_to_string(&mut text).expect("rows");
    let is_wide = text.contains(':');
    let mut rows: Vec<Network> = text.lines().map(row).collect();
    rows.sort_unstable();
    rows.dedup();
    for index in 0..count.min(rows.len()) {
        let other = index + numbers.below(rows.len() - index);
        rows.swap(index, other);
    }
    rows.truncate(count);
    rows.sort_unstable();
    (rows, is_wide)
}

fn row(line: &str) -> Network {
    let (network, _) = line.split_once(' ').expect("a network and a number");
    let (address, len) = network.split_once('/').expect("an address and a prefix length");
    let bits = match address.parse::<Ipv4Addr>() {
        Ok(address) => u32::from(address).bits(),
        Err(_) => u128::from(address.parse::<Ipv6Addr>().expect("an address")),
    };
    (bits, len.parse().expect("a prefix length"))
}

/// The longest match by a walk down a `BTreeMap`, as `rust/bench` has it.
fn walk<A: Address>(map: &BTreeMap<Network, u32>, asked: u128) -> u32 {
    let mut end = (asked, A::WIDTH);
    while let Some((key, value)) = map.range(..=end).next_back() {
        let shared = (key.0 ^ asked).leading_zeros().min(key.1);
        if shared == key.1 {
            return *value;
        }
        end = (asked & !behind(shared), shared);
    }
    NONE
}

/// A random address in a network.
fn inside<A: Address>((first, len): Network, numbers: &mut Numbers) -> u128 {
    first | numbers.wide() & behind(len) & !behind(A::WIDTH)
}

/// The look-up keys of each kind.
fn asked<A: Address>(rows: &[Network], map: &BTreeMap<Network, u32>, numbers: &mut Numbers) -> [Vec<A>; 3] {
    let hit = |numbers: &mut Numbers| inside::<A>(rows[numbers.below(rows.len())], numbers);
    let hits = (0..ASKED).map(|_| A::of(hit(numbers))).collect();
    let hosts: Vec<u128> = (0..HOSTS).map(|_| hit(numbers)).collect();
    let mut misses = Vec::new();
    while misses.len() < ASKED {
        // IPv6 addresses begin as rows do, or else none would come near one.
        let shared = if A::WIDTH == 128 { !behind(16) } else { 0 };
        let bits = rows[numbers.below(rows.len())].0 & shared | numbers.wide() & !shared & !behind(A::WIDTH);
        if walk::<A>(map, bits) == NONE {
            misses.push(A::of(bits));
        }
    }
    let mut sum = 0;
    let sums: Vec<u64> = (1..=HOSTS as u64)
        .map(|host| {
            sum += (1 << 40) / host;
            sum
        })
        .collect();
    let flows = (0..ASKED)
        .map(|_| {
            let chosen = numbers.next() % sum;
            A::of(hosts[sums.partition_point(|it| *it <= chosen)])
        })
        .collect();
    [hits, misses, flows]
}

// ---- times

fn mixed(sum: u32, value: u32) -> u32 {
    sum.wrapping_mul(5) ^ value
}

#[inline(never)]
fn plain<A: Address, W: Way<A>>(way: &W, asked: &[A]) -> u32 {
    asked.iter().fold(0, |sum, it| mixed(sum, way.find(*it)))
}

/// The same, compiled for processors that count bits by one instruction, as what it is compared with is.
#[target_feature(enable = "popcnt")]
unsafe fn counting<A: Address, W: Way<A>>(way: &W, asked: &[A]) -> u32 {
    let mut sum = 0;
    for it in asked {
        sum = mixed(sum, way.find(*it));
    }
    sum
}

/// The least nanoseconds of a look-up in five turns, and a number that hangs on all values.
fn least<A>(asked: &[A], call: impl Fn(&[A]) -> u32) -> (f64, u32) {
    let (mut time, mut sum) = (f64::MAX, 0);
    for _ in 0..TURNS {
        let start = Instant::now();
        sum = call(black_box(asked));
        time = time.min(start.elapsed().as_nanos() as f64 / asked.len() as f64);
    }
    (time, black_box(sum))
}

/// Builds it, compares all values with those that are wanted, and prints what it takes.
fn time<A: Address, W: Way<A>>(name: &str, rows: &[Network], kinds: &[(&str, Vec<A>, Vec<u32>)], counts: bool) {
    let start = Instant::now();
    let way = W::of(&Ranges::of(rows));
    let build = start.elapsed().as_nanos() as f64 / rows.len() as f64;
    for (kind, asked, wanted) in kinds {
        assert!(asked.iter().zip(wanted).all(|(it, value)| way.find(*it) == *value), "{name}, {kind}: a value differs");
        let (time, sum) = least(asked, |asked| plain(&way, asked));
        println!("{name}\t{kind}\t{time:.1}\t{sum}");
        if counts && std::arch::is_x86_feature_detected!("popcnt") {
            let (time, sum) = least(asked, |asked| unsafe { counting(&way, asked) });
            println!("{name} with popcnt\t{kind}\t{time:.1}\t{sum}");
        }
    }
    println!("{name}\tbytes\t{:.1}\t{build:.0}", way.bytes() as f64 / rows.len() as f64);
}

fn run<A: Address>(what: &str, rows: &[Network], numbers: &mut Numbers) {
    let map = rows.iter().enumerate().map(|(index, row)| (*row, index as u32)).collect();
    let asked = asked::<A>(rows, &map, numbers);
    if what == "input" {
        let mut out = std::io::BufWriter::new(std::io::stdout());
        for (index, (first, len)) in rows.iter().enumerate() {
            writeln!(out, "{}/{len} {index}", A::of(*first).text()).expect("room");
        }
        for keys in &asked {
            for key in keys {
                writeln!(out, "ask {}", key.text()).expect("room");
            }
            writeln!(out, "speed").expect("room");
        }
        return;
    }
    let kinds: Vec<_> = ["hit", "miss", "flows"]
        .into_iter()
        .zip(asked)
        .map(|(kind, asked)| {
            let wanted = asked.iter().map(|it| walk::<A>(&map, it.bits())).collect();
            (kind, asked, wanted)
        })
        .collect();
    time::<A, Poptrie>("Poptrie", rows, &kinds, true);
    time::<A, Arrays>("arrays", rows, &kinds, false);
}

fn main() {
    let words: Vec<String> = std::env::args().skip(1).collect();
    let [what, count] = &words[..] else {
        return eprintln!("forwarding input ROWS | forwarding time ROWS");
    };
    let mut numbers = Numbers(52);
    let (rows, is_wide) = rows(count.parse().expect("a number of rows"), &mut numbers);
    if is_wide {
        run::<u128>(what, &rows, &mut numbers);
    } else {
        run::<u32>(what, &rows, &mut numbers);
    }
}
