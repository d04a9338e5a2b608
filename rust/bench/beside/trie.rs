//! What tables of `bench` do, in other ways that people use, over the same rows and addresses. Longest matches go
//! by a trie with a stride of eight bits, whose nodes have a bit for each prefix and each child and no room for those that
//! are not there, by a walk down the `BTreeMap` of Rust's library, and by a binary search for each length. Single rows are
//! found by a binary search, and are inserted into a `BTreeMap` and removed; beside loading stand sorts.
//!
//! `trie ROUNDS` prints a line for each row with tabs between: its name, a number that hangs on all results, and the
//! nanoseconds of a call; of a longest match those in the trie, of the walk and of the searches, of which there is one
//! round, and the bytes of the trie for each row. Each time is the least of five turns. It fails where two ways differ.

#[allow(dead_code)] // what only sets ask for
mod routes;

use routes::{ASKED, Address, random, random_ipv4};
use std::collections::BTreeMap;
use std::hint::black_box;
use std::mem::size_of;
use std::time::Instant;

/// A set of so many words of bits, which tells how many are set before one.
#[derive(Clone, Copy)]
struct Bits<const WORDS: usize>([u64; WORDS]);

impl<const WORDS: usize> Bits<WORDS> {
    const NONE: Self = Bits([0; WORDS]);

    fn has(&self, index: usize) -> bool {
        self.0[index / 64] >> (index % 64) & 1 == 1
    }

    fn set(&mut self, index: usize) {
        self.0[index / 64] |= 1 << (index % 64);
    }

    fn before(&self, index: usize) -> usize {
        let whole: u32 = self.0[..index / 64].iter().map(|word| word.count_ones()).sum();
        let part = self.0[index / 64] & ((1 << (index % 64)) - 1);
        (whole + part.count_ones()) as usize
    }
}

/// The prefixes that end in one octet, and the nodes of the next. A prefix of `bits` bits of it has the index
/// 2^bits + the number of these bits.
struct Node {
    prefixes: Bits<8>,
    values: Vec<u32>,
    octets: Bits<4>,
    nodes: Vec<Node>,
}

impl Node {
    fn new() -> Node {
        Node { prefixes: Bits::NONE, values: Vec::new(), octets: Bits::NONE, nodes: Vec::new() }
    }

    fn insert(&mut self, octets: &[u8], len: usize, value: u32) {
        if len > 8 {
            let octet = usize::from(octets[0]);
            let at = self.octets.before(octet);
            if !self.octets.has(octet) {
                self.octets.set(octet);
                self.nodes.insert(at, Node::new());
            }
            return self.nodes[at].insert(&octets[1..], len - 8, value);
        }
        let index = 1 << len | usize::from(octets[0]) >> (8 - len);
        let at = self.prefixes.before(index);
        if self.prefixes.has(index) {
            self.values[at] = value;
        } else {
            self.prefixes.set(index);
            self.values.insert(at, value);
        }
    }

    fn shrink(&mut self) {
        self.values.shrink_to_fit();
        self.nodes.shrink_to_fit();
        self.nodes.iter_mut().for_each(Node::shrink);
    }

    fn bytes(&self) -> usize {
        let below: usize = self.nodes.iter().map(Node::bytes).sum();
        size_of::<Node>() + self.values.len() * size_of::<u32>() + below
    }

    fn child(&self, octet: u8) -> Option<&Node> {
        let octet = usize::from(octet);
        self.octets.has(octet).then(|| &self.nodes[self.octets.before(octet)])
    }

    /// The value of the longest prefix that ends in this octet.
    fn longest(&self, octet: u8) -> Option<u32> {
        let mut index = 256 | usize::from(octet);
        while index > 0 {
            if self.prefixes.has(index) {
                return Some(self.values[self.prefixes.before(index)]);
            }
            index >>= 1;
        }
        None
    }

    fn lookup(&self, octets: &[u8]) -> Option<u32> {
        let mut path = [self; 16];
        let mut depth = 0;
        while depth + 1 < octets.len() {
            let Some(node) = path[depth].child(octets[depth]) else { break };
            depth += 1;
            path[depth] = node;
        }
        (0..=depth).rev().find_map(|at| path[at].longest(octets[at]))
    }
}

/// What the two ways ask of an address.
trait Key: Address {
    fn octets(self) -> [u8; 16];
    fn shared(self, other: Self) -> u32;
}

impl Key for u32 {
    fn octets(self) -> [u8; 16] {
        (u128::from(self) << 96).to_be_bytes()
    }

    fn shared(self, other: u32) -> u32 {
        (self ^ other).leading_zeros()
    }
}

impl Key for u128 {
    fn octets(self) -> [u8; 16] {
        self.to_be_bytes()
    }

    fn shared(self, other: u128) -> u32 {
        (self ^ other).leading_zeros()
    }
}

fn mixed(sum: u32, next: u32) -> u32 {
    sum.wrapping_mul(5) ^ next
}

/// The longest match by a walk down a `BTreeMap`: the last key that is not after the asked one, then the last that is not
/// after what both begin with, until the asked one begins with the key.
fn walk<A: Key>(map: &BTreeMap<(A, u32), u32>, asked: A) -> Option<u32> {
    let mut end = (asked, A::WIDTH);
    loop {
        let (key, value) = map.range(..=end).next_back()?;
        let shared = key.0.shared(asked).min(key.1);
        if shared == key.1 {
            return Some(*value);
        }
        end = (asked.masked(shared), shared);
    }
}

/// The longest match by a binary search for each length from the longest down.
fn search<A: Key>(rows: &[Row<A>], asked: A) -> Option<u32> {
    (0..=A::WIDTH).rev().find_map(|len| get(rows, (asked.masked(len), len)))
}

/// The value of a network, by a binary search.
fn get<A: Key>(rows: &[Row<A>], key: (A, u32)) -> Option<u32> {
    rows.binary_search_by(|row| row.0.cmp(&key)).ok().map(|place| rows[place].1)
}

/// A network and its value.
type Row<A> = ((A, u32), u32);

/// The least nanoseconds of one of so many calls a round in five turns, and a number that hangs on all results.
fn least(rounds: u32, calls: usize, mut round: impl FnMut(u32, u32) -> u32) -> (f64, u32) {
    let (mut time, mut number) = (f64::MAX, 0);
    for _ in 0..5 {
        let start = Instant::now();
        number = black_box((0..rounds).fold(0, |sum, at| round(at, sum)));
        time = time.min(start.elapsed().as_nanos() as f64 / (f64::from(rounds) * calls as f64));
    }
    (time, number)
}

/// The same of a call with each value.
fn each<T: Copy>(rounds: u32, values: &[T], call: impl Fn(T) -> Option<u32>) -> (f64, u32) {
    let one = |sum, it: &T| mixed(sum, call(*it).unwrap_or(u32::MAX));
    least(rounds, values.len(), |_, sum| black_box(values).iter().fold(sum, one))
}

fn compare<A: Key>(rounds: u32, of: &str, size: usize) {
    // of rows with the same network the last one counts
    let mut rows: Vec<Row<A>> = (0..size).rev().map(|index| (A::longer_route(index, 0), random_ipv4(index))).collect();
    rows.sort_by_key(|row| row.0);
    rows.dedup_by_key(|row| row.0);
    let chosen = |index: usize| rows[(random(index) >> 32) as usize % rows.len()].0;
    let hits: Vec<A> = (0..ASKED)
        .map(|index| {
            let (first, len) = chosen(index ^ 0x0800_0000);
            first.inside(len, random(index ^ 0x0400_0000))
        })
        .collect();
    let misses: Vec<A> = (0..ASKED).map(|index| A::outside(index ^ 0x0200_0000)).collect();
    let mut map = BTreeMap::new();
    let mut trie = Node::new();
    for ((first, len), value) in &rows {
        map.insert((*first, *len), *value);
        trie.insert(&first.octets(), *len as usize, *value);
    }
    trie.shrink();
    let octets = A::WIDTH as usize / 8;
    let bytes = trie.bytes() as f64 / rows.len() as f64;
    for (name, asked) in [("match", &hits), ("no match", &misses)] {
        let (by_trie, number) = each(rounds, asked, |it| trie.lookup(&it.octets()[..octets]));
        let (by_walk, found) = each(rounds, asked, |it| walk(&map, it));
        assert_eq!(found, number, "{name} {of}: the results differ");
        let (by_searches, found) = each(1, asked, |it| search(&rows, it));
        assert_eq!(found, each(1, asked, |it| walk(&map, it)).1, "{name} {of}: the results differ");
        println!("{name} {of}\t{number}\t{by_trie:.1}\t{by_walk:.1}\t{by_searches:.1}\t{bytes:.0}");
    }
    let keys: Vec<(A, u32)> = (0..ASKED).map(|index| chosen(index ^ 0x0100_0000)).collect();
    let (time, number) = each(rounds, &keys, |it| get(&rows, it));
    println!("get {of}\t{number}\t{time:.1}");
    let keys: Vec<(A, u32)> = misses[..64].iter().map(|it| (*it, A::WIDTH)).collect();
    let (time, number) = least(rounds, keys.len(), |round, sum| {
        keys.iter().fold(sum, |sum, key| {
            let sum = mixed(sum, map.insert(*key, round).unwrap_or(u32::MAX));
            mixed(sum, map.remove(key).unwrap_or(u32::MAX))
        })
    });
    println!("insert and remove {of}\t{number}\t{time:.1}");
}

/// Sorts as many prefixes as the library loads, and counts those that differ from the next; and then as many rows, of
/// which the last of each prefix stays.
fn sort(rounds: u32) {
    let prefix = |index: usize| {
        let len = 8 + (random(index ^ 0x2000_0000) % 17) as u32;
        (random_ipv4(index).masked(len), len as u8)
    };
    let prefixes: Vec<(u32, u8)> = (0..900_000).map(prefix).collect();
    let (time, number) = least(rounds, prefixes.len(), |_, sum| {
        let mut pairs = prefixes.clone();
        pairs.sort_unstable();
        pairs.dedup();
        mixed(sum, pairs.len() as u32)
    });
    println!("load a table\t{number}\t{time:.1}");
    let rows: Vec<((u32, u8), u32)> = prefixes.into_iter().zip(0..).collect();
    let (time, number) = least(rounds, rows.len(), |_, sum| {
        let mut rows = rows.clone();
        rows.sort_by_key(|row| row.0);
        rows.dedup_by(|row, kept| {
            let same = row.0 == kept.0;
            if same {
                std::mem::swap(row, kept);
            }
            same
        });
        mixed(sum, rows.len() as u32)
    });
    println!("load a table from rows\t{number}\t{time:.1}");
}

fn main() {
    let rounds = std::env::args().nth(1).and_then(|word| word.parse().ok()).unwrap_or(1);
    for (said, size) in [("1,000", 1_000), ("100,000", 100_000), ("900,000", 900_000)] {
        compare::<u32>(rounds, &format!("IPv4 in {said}"), size);
        compare::<u128>(rounds, &format!("IPv6 in {said}"), size);
    }
    sort(rounds);
}
