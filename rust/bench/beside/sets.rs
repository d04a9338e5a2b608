//! Sets of addresses in two ways that people use, over the networks and the addresses of the sets in `bench`:
//! sorted lists of ranges of numbers, of which no two overlap or touch, and a tree of prefixes with a node for each
//! bit, as the crate `iprange` has it.
//!
//! `sets ROUNDS` prints a line for each row with tabs between: its name, a number that hangs on all results, and the
//! nanoseconds by ranges and by the tree, for each network of both sets or of a list, or for each address. The row of a
//! binary search has the nanoseconds of one in the networks of a set instead. Each time is the least of five turns. It
//! fails where two ways differ.

mod routes;

use routes::{ASKED, Address, random};
use std::hint::black_box;
use std::time::Instant;

/// A list of ranges from a first to a last address, which ascend.
type Ranges<A> = Vec<(A, A)>;

fn push_joined<A: Address>(ranges: &mut Ranges<A>, range: (A, A)) {
    match ranges.last_mut() {
        Some(last) if range.0 <= last.1.after() => last.1 = last.1.max(range.1),
        _ => ranges.push(range),
    }
}

fn union<A: Address>(these: &Ranges<A>, those: &Ranges<A>) -> Ranges<A> {
    let mut ranges = Vec::with_capacity(these.len() + those.len());
    let (mut left, mut right) = (these.as_slice(), those.as_slice());
    loop {
        match (left, right) {
            ([range, ..], [next, rest @ ..]) if next.0 < range.0 => {
                push_joined(&mut ranges, *next);
                right = rest;
            }
            ([range, rest @ ..], _) => {
                push_joined(&mut ranges, *range);
                left = rest;
            }
            ([], [next, rest @ ..]) => {
                push_joined(&mut ranges, *next);
                right = rest;
            }
            ([], []) => return ranges,
        }
    }
}

fn intersection<A: Address>(these: &Ranges<A>, those: &Ranges<A>) -> Ranges<A> {
    let mut ranges = Vec::with_capacity(these.len() + those.len());
    let (mut left, mut right) = (these.as_slice(), those.as_slice());
    while let ([range, behind @ ..], [next, rest @ ..]) = (left, right) {
        let (first, last) = (range.0.max(next.0), range.1.min(next.1));
        if first <= last {
            ranges.push((first, last));
        }
        if range.1 < next.1 {
            left = behind;
        } else {
            right = rest;
        }
    }
    ranges
}

fn difference<A: Address>(these: &Ranges<A>, those: &Ranges<A>) -> Ranges<A> {
    let mut ranges = Vec::with_capacity(these.len() + those.len());
    let mut right = those.as_slice();
    for &(first, last) in these {
        let mut from = Some(first);
        while let (Some(start), [next, rest @ ..]) = (from, right) {
            if next.0 > last {
                break;
            }
            if start < next.0 {
                ranges.push((start, next.0.before()));
            }
            if next.1 >= last {
                from = None;
            } else {
                from = Some(start.max(next.1.after()));
                right = rest;
            }
        }
        if let Some(start) = from {
            ranges.push((start, last));
        }
    }
    ranges
}

/// The ranges of networks in any order.
fn of_networks<A: Address>(networks: &[(A, u32)]) -> Ranges<A> {
    let mut sorted: Ranges<A> = networks.iter().map(|(first, len)| (*first, first.last(*len))).collect();
    sorted.sort();
    let mut ranges = Vec::with_capacity(sorted.len());
    sorted.into_iter().for_each(|range| push_joined(&mut ranges, range));
    ranges
}

/// Adds an address: ranges that it touches become one.
fn add<A: Address>(ranges: &mut Ranges<A>, address: A) {
    let from = ranges.partition_point(|range| range.1.after() < address);
    let to = from + ranges[from..].partition_point(|range| range.0 <= address.after());
    let all = ranges[from..to].iter().fold((address, address), |all, it| (all.0.min(it.0), all.1.max(it.1)));
    ranges.splice(from..to, [all]);
}

/// Takes an address out of the range that has it.
fn take_out<A: Address>(ranges: &mut Ranges<A>, address: A) {
    let at = ranges.partition_point(|range| range.1 < address);
    let Some(&(first, last)) = ranges.get(at).filter(|range| range.0 <= address) else { return };
    let lower = (first < address).then(|| (first, address.before()));
    let upper = (address < last).then(|| (address.after(), last));
    ranges.splice(at..at + 1, lower.into_iter().chain(upper));
}

/// A prefix, and the longer ones in it. One without a longer one is in the set, with all its addresses.
#[derive(Clone, Default)]
struct Node([Option<Box<Node>>; 2]);

impl Node {
    fn is_leaf(&self) -> bool {
        self.0[0].is_none() && self.0[1].is_none()
    }
}

/// The tree of a set, or `None` of the empty one.
type Tree = Option<Box<Node>>;

/// The node of which both halves are in the set is a prefix in the set.
fn joined(lower: Tree, upper: Tree) -> Tree {
    match (lower, upper) {
        (None, None) => None,
        (Some(lower), Some(upper)) if lower.is_leaf() && upper.is_leaf() => Some(Box::default()),
        (lower, upper) => Some(Box::new(Node([lower, upper]))),
    }
}

/// Adds the prefix of so many bits of an address that are left behind `depth` bits.
fn insert<A: Address>(tree: Tree, first: A, len: u32, depth: u32) -> Tree {
    match tree {
        _ if depth == len => Some(Box::default()),
        Some(node) if node.is_leaf() => Some(node),
        tree => {
            let mut halves = tree.map_or([None, None], |node| node.0);
            let half = &mut halves[first.bit(depth)];
            *half = insert(half.take(), first, len, depth + 1);
            let [lower, upper] = halves;
            joined(lower, upper)
        }
    }
}

fn tree_union(one: &Tree, other: &Tree) -> Tree {
    match (one, other) {
        (None, tree) | (tree, None) => tree.clone(),
        (Some(one), Some(other)) => {
            if one.is_leaf() || other.is_leaf() {
                return Some(Box::default());
            }
            joined(tree_union(&one.0[0], &other.0[0]), tree_union(&one.0[1], &other.0[1]))
        }
    }
}

fn tree_intersection(one: &Tree, other: &Tree) -> Tree {
    let (Some(node), Some(next)) = (one, other) else { return None };
    if node.is_leaf() {
        return other.clone();
    }
    if next.is_leaf() {
        return one.clone();
    }
    joined(tree_intersection(&node.0[0], &next.0[0]), tree_intersection(&node.0[1], &next.0[1]))
}

fn tree_difference(one: &Tree, other: &Tree) -> Tree {
    let Some(node) = one else { return None };
    let Some(next) = other else { return one.clone() };
    if next.is_leaf() {
        return None;
    }
    if node.is_leaf() {
        let whole = Some(Box::default());
        return joined(tree_difference(&whole, &next.0[0]), tree_difference(&whole, &next.0[1]));
    }
    joined(tree_difference(&node.0[0], &next.0[0]), tree_difference(&node.0[1], &next.0[1]))
}

fn tree_contains<A: Address>(tree: &Tree, address: A) -> bool {
    let mut next = tree;
    for depth in 0..=A::WIDTH {
        match next {
            None => return false,
            Some(node) if node.is_leaf() => return true,
            Some(node) => next = &node.0[address.bit(depth)],
        }
    }
    false
}

fn push_ranges<A: Address>(tree: &Tree, first: A, depth: u32, ranges: &mut Ranges<A>) {
    let Some(node) = tree else { return };
    if node.is_leaf() {
        return push_joined(ranges, (first, first.last(depth)));
    }
    let upper = first.last(depth).masked(depth + 1);
    push_ranges(&node.0[0], first, depth + 1, ranges);
    push_ranges(&node.0[1], upper, depth + 1, ranges);
}

/// The least nanoseconds of one of so many parts of some work in five turns of so many rounds, and the last result.
fn least<T>(rounds: u32, parts: usize, work: impl Fn() -> T) -> (f64, T) {
    let mut time = f64::MAX;
    let mut result = work();
    for _ in 0..5 {
        let start = Instant::now();
        for _ in 0..rounds {
            drop(result);
            result = black_box(work());
        }
        let all = f64::from(rounds) * parts as f64;
        time = time.min(start.elapsed().as_nanos() as f64 / all);
    }
    (time, result)
}

fn folded(number: u128) -> u32 {
    let half = number ^ number >> 64;
    (half ^ half >> 32) as u32
}

fn mixed(sum: u32, next: u32) -> u32 {
    sum.wrapping_mul(5) ^ next
}

/// A number that hangs on so many equal results: on the last address of each, and in the first round on the number of
/// addresses.
fn number_of<A: Address>(rounds: u32, ranges: &Ranges<A>) -> u32 {
    let last = ranges.last().map_or(0, |range| range.1.wide());
    let size = |range: &(A, A)| range.1.wide().wrapping_sub(range.0.wide()).wrapping_add(1);
    let count = ranges.iter().fold(0u128, |count, range| count.wrapping_add(size(range)));
    (1..rounds).fold(folded(last ^ count), |sum, _| mixed(sum, folded(last)))
}

/// A number that hangs on the answers to some questions, which are asked in so many rounds.
fn number_of_all(rounds: u32, answers: &[u32]) -> u32 {
    (0..rounds).fold(0, |sum, _| answers.iter().fold(sum, |sum, it| mixed(sum, *it)))
}

/// What makes a set of two others.
type OfTwo<T> = fn(&T, &T) -> T;

/// So many random routes, from an index on.
fn routes<A: Address>(from: usize, size: usize, more: u32) -> Vec<(A, u32)> {
    (from..from + size).map(|index| A::longer_route(index, more)).collect()
}

/// The networks of the set of routes, ascending: none is in another, and no two are the halves of one.
fn reduced<A: Address>(mut networks: Vec<(A, u32)>) -> Vec<(A, u32)> {
    networks.sort();
    let mut reduced: Vec<(A, u32)> = Vec::new();
    for mut next in networks {
        if reduced.last().is_some_and(|last| next.0 <= last.0.last(last.1)) {
            continue;
        }
        while next.1 > 0 && reduced.last() == Some(&(next.0.masked(next.1 - 1), next.1)) {
            reduced.pop();
            next = (next.0.masked(next.1 - 1), next.1 - 1);
        }
        reduced.push(next);
    }
    reduced
}

fn compare<A: Address>(rounds: u32, of: &str, part: usize, more: u32) {
    let these = reduced(routes::<A>(0, 9 * part, more));
    let those = reduced(routes::<A>(9 * part - part / 2, part, more));
    let mut ranges = [Vec::new(), Vec::new()];
    let mut trees = [None, None];
    for (index, networks) in [&these, &those].iter().enumerate() {
        for &(first, len) in networks.iter() {
            push_joined(&mut ranges[index], (first, first.last(len)));
            trees[index] = insert(trees[index].take(), first, len, 0);
        }
    }
    let parts = these.len() + those.len();
    let operation = |name: &str, by_ranges: OfTwo<Ranges<A>>, by_tree: OfTwo<Tree>| {
        let (time, wanted) = least(rounds, parts, || by_ranges(black_box(&ranges[0]), &ranges[1]));
        let (tree_time, tree) = least(rounds.div_ceil(10), parts, || by_tree(black_box(&trees[0]), &trees[1]));
        let mut found = Vec::new();
        push_ranges(&tree, A::ZERO, 0, &mut found);
        assert!(found == wanted, "{name} {of}: the results differ");
        println!("{name} {of}\t{}\t{time:.1}\t{tree_time:.1}", number_of(rounds, &wanted));
    };
    operation("set union", union, tree_union);
    operation("set intersection", intersection, tree_intersection);
    operation("set difference", difference, tree_difference);
    let asked: Vec<A> = (0..ASKED)
        .map(|index| {
            let chosen = random(index ^ 0x0800_0000);
            let (first, len) = if chosen % 2 == 0 {
                these[(chosen >> 32) as usize % these.len()]
            } else {
                A::longer_route(index ^ 0x0200_0000, more)
            };
            first.inside(len, random(index ^ 0x0400_0000))
        })
        .collect();
    let is_in = |ranges: &Ranges<A>, it: A| {
        let place: usize = ranges.partition_point(|range| range.0 <= it);
        place > 0 && it <= ranges[place - 1].1
    };
    let (time, wanted) = least(rounds, ASKED, || {
        let ranges = black_box(&ranges[0]);
        asked.iter().filter(|it| is_in(ranges, **it)).count()
    });
    let answers: Vec<u32> = asked.iter().map(|it| u32::from(is_in(&ranges[0], *it))).collect();
    let (tree_time, found) = least(rounds.div_ceil(10), ASKED, || {
        let tree = black_box(&trees[0]);
        asked.iter().filter(|it| tree_contains(tree, **it)).count()
    });
    assert_eq!(found, wanted, "set contains {of}: the results differ");
    println!("set contains {of}\t{}\t{time:.1}\t{tree_time:.1}", number_of_all(rounds, &answers));
    println!("set contains, made ready {of}\t{}\t{time:.1}\t-", number_of_all(rounds, &answers));
    let place = |networks: &[(A, u32)], it: A| networks.binary_search(&(it, A::WIDTH)).unwrap_or_else(|at| at) as u32;
    let (time, _) = least(rounds, ASKED, || {
        let networks = black_box(&these);
        asked.iter().fold(0, |sum, it| mixed(sum, place(networks, *it)))
    });
    let places: Vec<u32> = asked.iter().map(|it| place(&these, *it)).collect();
    println!("set binary search {of}\t{}\t{time:.1}\t-", number_of_all(rounds, &places));
    change(of, ranges[0].clone());
    make::<A>(rounds, of, 9 * part, more);
}

/// Adds 64 addresses that no route has, and takes them out.
fn change<A: Address>(of: &str, mut ranges: Ranges<A>) {
    let addresses: Vec<A> = (0..64).map(|index| A::outside(index ^ 0x0200_0000)).collect();
    let (mut added, mut taken) = (f64::MAX, f64::MAX);
    for _ in 0..5 {
        let start = Instant::now();
        black_box(&addresses).iter().for_each(|it| add(black_box(&mut ranges), *it));
        added = added.min(start.elapsed().as_nanos() as f64 / addresses.len() as f64);
        let start = Instant::now();
        black_box(&addresses).iter().for_each(|it| take_out(black_box(&mut ranges), *it));
        taken = taken.min(start.elapsed().as_nanos() as f64 / addresses.len() as f64);
    }
    let number = addresses.iter().fold(0, |sum, _| mixed(sum, 1));
    println!("set insert {of}\t{number}\t{added:.1}\t-");
    println!("set remove {of}\t{number}\t{taken:.1}\t-");
}

/// Makes the set of many networks: of a list in no order, and of sixteen that ascend, at once and by unions in turn, in a
/// tenth of the rounds.
fn make<A: Address>(rounds: u32, of: &str, size: usize, more: u32) {
    let rounds = (rounds / 10).max(1);
    let mut networks = routes::<A>(0, size, more);
    let (time, wanted) = least(rounds, size, || of_networks(black_box(&networks)));
    println!("set of a list {of}\t{}\t{time:.1}\t-", number_of(rounds, &wanted));
    let len = (size / 16).max(1);
    networks.chunks_mut(len).for_each(|list| list.sort());
    let (time, found) = least(rounds, size, || of_networks(black_box(&networks)));
    assert!(found == wanted, "set of 16 lists {of}: the results differ");
    println!("set of 16 lists {of}\t{}\t{time:.1}\t-", number_of(rounds, &wanted));
    let sets: Vec<Ranges<A>> = networks.chunks(len).map(of_networks).collect();
    let (time, found) = least(rounds, size, || sets.iter().fold(Vec::new(), |all, set| union(&all, set)));
    assert!(found == wanted, "set of 16 lists, by unions {of}: the results differ");
    println!("set of 16 lists, by unions {of}\t{}\t{time:.1}\t-", number_of(rounds, &wanted));
}

fn main() {
    let rounds = std::env::args().nth(1).and_then(|word| word.parse().ok()).unwrap_or(1);
    compare::<u32>(rounds, "IPv4, small", 100, 0);
    compare::<u128>(rounds, "IPv6, small", 100, 0);
    compare::<u32>(rounds, "IPv4, routes", 100_000, 0);
    compare::<u128>(rounds, "IPv6, routes", 100_000, 0);
    compare::<u32>(rounds, "IPv4", 100_000, 8);
    compare::<u128>(rounds, "IPv6", 100_000, 8);
}
