//! `doors INPUT` looks the first addresses of INPUT, lines `ask ADDRESS`, up among its rows, lines `NETWORK NUMBER`, as
//! `forwarding input` writes them, in Rust and by the calls of doors.c. It prints of each way a line with tabs between: its name, the
//! nanoseconds of a look-up, the least of nine turns, and the sum of the numbers of the rows that are found. The ways take turns, over
//! the same words and the same addresses, so that what slows the machine for a while, or lies badly in memory, is the same for all.

use cidr::{Ipv4Cidr, Ipv6Cidr};
use cidr_files::{FileAddress, FileRows, FileTable, Ipv4Bytes, Ipv6Bytes, lookup, open, written};
use cidr_lookup::{Address, Key, Keyed, ReadyTable, build, find};
use cidr_support::alloc::Global;
use cidr_support::vec::Vec as Rattled;
use cidr_table::LpmTable;
use std::fmt::Debug;
use std::hint::black_box;
use std::net::{Ipv4Addr, Ipv6Addr};
use std::str::FromStr;

const TURNS: u32 = 9;

#[repr(C)]
struct Time {
    seconds: i64,
    nanoseconds: i64,
}

/// `pcidr_table` of the header.
#[repr(C)]
struct Table {
    first: *const u32,
    first_len: usize,
    words: *const u32,
    words_len: usize,
    steps: u32,
    rows: u32,
    family: u32,
}

unsafe extern "C" {
    safe fn clock_gettime(clock: i32, time: &mut Time) -> i32;
    fn doors_table_lookup(table: &Table, asked: *const Value, asked_len: usize) -> u64;
    fn doors_table_lookup_chained(table: &Table, asked: *const Value, asked_len: usize, none: usize) -> u64;
    fn doors_table_lookup_each(table: &Table, asked: *const Value, asked_len: usize) -> u64;
    fn doors_file_lookup(bytes: *const u8, bytes_len: usize, asked: *const Value, asked_len: usize) -> u64;
}

/// An address as it lies in an array of C: 24 bytes.
#[repr(C)]
#[derive(Clone, Copy)]
struct Value {
    high: u64,
    low: u64,
    tag: u64,
}

impl Value {
    fn number(self) -> u128 {
        u128::from(self.high) << 64 | u128::from(self.low)
    }
}

/// The nanoseconds that this process has run on processors, as Linux counts them (`CLOCK_PROCESS_CPUTIME_ID`).
fn now() -> f64 {
    let mut time = Time { seconds: 0, nanoseconds: 0 };
    clock_gettime(2, &mut time);
    1e9 * time.seconds as f64 + time.nanoseconds as f64
}

/// Ways to look all addresses up, each with its name: what it returns is the sum of the rows.
type Ways<'a> = Vec<(&'static str, Box<dyn Fn() -> usize + 'a>)>;

/// Adds a way that looks one address up after the other.
fn add<'a, A: Copy>(ways: &mut Ways<'a>, name: &'static str, asked: &'a [A], find: impl Fn(A) -> Option<usize> + 'a) {
    ways.push((name, Box::new(move || asked.iter().map(|address| find(*address).unwrap_or(0)).sum())));
}

/// Prints the least time of each way.
fn time(ways: &Ways, asked: usize) {
    let mut least = vec![(f64::MAX, 0); ways.len()];
    for _ in 0..TURNS {
        for ((_, sum_of), least) in ways.iter().zip(&mut least) {
            let start = now();
            let sum = black_box(sum_of());
            *least = (least.0.min((now() - start) / asked as f64), sum);
        }
    }
    for ((name, _), (time, sum)) in ways.iter().zip(least) {
        println!("{name}\t{time:.3}\t{sum}");
    }
}

/// Looks up in words, in a table made ready and in the bytes of a file.
fn run<C, W>(networks: &[C], asked: &[u128], hosts: &[C], part: impl Fn(&[Key<W>], &[u32], &[u8]) -> Rattled<u8>, of: fn(&[u8]) -> FileTable<'_>)
where
    C: Keyed + Copy + FromStr,
    W: FileAddress + Copy,
{
    let keys: Vec<Key<C::Number>> = networks.iter().map(Key::of).collect();
    let table = build(Global, &keys).unwrap_or_else(|error| panic!("{error}"));
    let (first, words) = (table.first.as_slice(), table.words.as_slice());
    let numbers: Vec<C::Number> = asked.iter().map(|number| C::Number::of(*number)).collect();
    let (family, tag) = if C::Number::width() == 32 { (4, 32) } else { (6, 192) };
    let values: Vec<Value> = asked.iter().map(|number| Value { high: (number >> 64) as u64, low: *number as u64, tag }).collect();
    let mut rows = Rattled::new(Global);
    networks.iter().for_each(|network| rows.push((*network, ())).expect("memory"));
    let ready = ReadyTable::new(Global, LpmTable::from_rows(rows)).unwrap_or_else(|_| panic!("no memory"));

    let (mut offsets, mut texts) = (vec![0], Vec::new());
    for row in 0..keys.len() {
        texts.extend(row.to_string().bytes());
        offsets.push(texts.len() as u32);
    }
    let stored: Vec<Key<W>> = keys.iter().map(|key| Key { address: W::of(key.address.number()), len: key.len }).collect();
    let bytes = part(&stored, &offsets, &texts);
    let part = of(bytes.as_slice());
    let addresses: Vec<W> = asked.iter().map(|number| W::of(*number)).collect();

    let found = |value: Value| find(&first, &words, table.steps, C::Number::of(value.number()));
    let (none, count) = (black_box(0), values.len());
    let of_c = Table {
        first: first.as_ptr(),
        first_len: first.len(),
        words: words.as_ptr(),
        words_len: words.len(),
        steps: table.steps,
        rows: keys.len() as u32,
        family,
    };
    let mut ways: Ways = Vec::new();
    add(&mut ways, "Rust, find", &numbers, |address| find(&first, &words, table.steps, address));
    add(&mut ways, "Rust, find of values as C has them", &values, found);
    ways.push(("C, pcidr_table_lookup", Box::new(|| unsafe { doors_table_lookup(&of_c, values.as_ptr(), count) } as usize)));
    ways.push(("C, pcidr_table_lookup_each", Box::new(|| unsafe { doors_table_lookup_each(&of_c, values.as_ptr(), count) } as usize)));
    // Each address is known only when the row of the one before is.
    ways.push((
        "Rust, find of values, one after the other",
        Box::new(|| {
            let (mut sum, mut row) = (0, 0);
            for at in 0..count {
                row = found(values[at + (row & none)]).unwrap_or(0);
                sum += row;
            }
            sum
        }),
    ));
    ways.push((
        "C, pcidr_table_lookup, one after the other",
        Box::new(|| unsafe { doors_table_lookup_chained(&of_c, values.as_ptr(), count, none) } as usize),
    ));
    add(&mut ways, "Rust, ReadyTable.find", hosts, |host| ready.find(&host));
    add(&mut ways, "Rust, lookup in a file", &addresses, |address| lookup(&part, address).map(|found| found.0));
    ways.push((
        "C, pcidr_file_lookup",
        Box::new(|| unsafe { doors_file_lookup(bytes.as_slice().as_ptr(), bytes.as_slice().len(), values.as_ptr(), count) } as usize),
    ));
    time(&ways, count);
}

fn parsed<T: FromStr<Err: Debug>>(text: &str) -> T {
    text.parse().expect("an address or a network")
}

fn main() {
    let name = std::env::args().nth(1).expect("a file");
    let text = std::fs::read_to_string(name).expect("a file");
    let lines: Vec<&str> = text.lines().take_while(|line| *line != "speed").collect();
    let (asked, rows): (Vec<&str>, Vec<&str>) = lines.iter().partition(|line| line.starts_with("ask "));
    let networks = rows.iter().map(|line| line.split(' ').next().expect("a network"));
    let addresses = || asked.iter().map(|line| &line[4..]);
    let none = FileRows { keys: &[], offsets: &[0], values: b"" };
    if text.contains(':') {
        let numbers: Vec<u128> = addresses().map(|it| parsed::<Ipv6Addr>(it).to_bits()).collect();
        let networks: Vec<Ipv6Cidr> = networks.map(parsed).collect();
        let file = |keys: &[Key<Ipv6Bytes>], offsets: &[u32], values: &[u8]| {
            written(Global, &none, &FileRows { keys, offsets, values }).unwrap_or_else(|error| panic!("{error}"))
        };
        let hosts: Vec<Ipv6Cidr> = addresses().map(parsed).collect();
        run::<Ipv6Cidr, Ipv6Bytes>(&networks, &numbers, &hosts, file, |bytes| open(bytes).unwrap_or_else(|fault| panic!("{fault}")).ipv6);
    } else {
        let numbers: Vec<u128> = addresses().map(|it| u128::from(parsed::<Ipv4Addr>(it).to_bits())).collect();
        let networks: Vec<Ipv4Cidr> = networks.map(parsed).collect();
        let none = FileRows { keys: &[], offsets: &[0], values: b"" };
        let file = |keys: &[Key<Ipv4Bytes>], offsets: &[u32], values: &[u8]| {
            written(Global, &FileRows { keys, offsets, values }, &none).unwrap_or_else(|error| panic!("{error}"))
        };
        let hosts: Vec<Ipv4Cidr> = addresses().map(parsed).collect();
        run::<Ipv4Cidr, Ipv4Bytes>(&networks, &numbers, &hosts, file, |bytes| open(bytes).unwrap_or_else(|fault| panic!("{fault}")).ipv4);
    }
}
