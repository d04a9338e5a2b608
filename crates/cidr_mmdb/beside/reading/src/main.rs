//! Reads MaxMind DB files by the crate `cidr_mmdb`, for the scripts beside this folder.
//!
//! - `reading look FILE`: the metadata, and then for each address of the standard input its network and its value.
//! - `reading hostile SEED..`: small files with each byte changed to each value, cut at each length, and with random bytes, trees and
//!   pointers; it prints how many files there were, how many opened, and the longest time for one.
//! - `reading time FILE ROUNDS`: the nanoseconds of a look-up, of one with its value, and of opening.
use cidr::{FamilyCidr, Ipv4Cidr, Ipv6Cidr};
use cidr_mmdb::{lookup, open, Database, Found};
use cidr_support::alloc::Global;
use std::fmt::Display;
use std::hint::black_box;
use std::io::{self, BufRead, BufWriter, Write};
use std::time::{Duration, Instant};

/// The longest text of a value that is written.
const LIMIT: usize = 1 << 24;

/// The same for a hostile file.
const HOSTILE_LIMIT: usize = 1 << 12;

fn main() -> io::Result<()> {
    let words: Vec<String> = std::env::args().skip(1).collect();
    let words: Vec<&str> = words.iter().map(String::as_str).collect();
    match words[..] {
        ["look", file] => look(&std::fs::read(file)?),
        ["time", file, rounds] => time(&std::fs::read(file)?, rounds.parse().unwrap()),
        ["hostile", ref seeds @ ..] => hostile(seeds),
        _ => panic!("look FILE, time FILE ROUNDS or hostile SEED.."),
    }
}

fn look(bytes: &[u8]) -> io::Result<()> {
    let mut out = BufWriter::new(io::stdout());
    let database = match open(bytes) {
        Ok(database) => database,
        Err(e) => return writeln!(out, "{e:?}"),
    };
    match database.metadata_json(Global, LIMIT) {
        Ok(text) => out.write_all(&text)?,
        Err(e) => write!(out, "{e:?}")?,
    }
    writeln!(out)?;
    for line in io::stdin().lock().lines() {
        let line = line?;
        match line.parse() {
            Ok(address) => show::<Ipv4Cidr>(&database, address, &mut out)?,
            Err(_) => show::<Ipv6Cidr>(&database, line.parse().unwrap(), &mut out)?,
        }
    }
    Ok(())
}

fn show<C: FamilyCidr + Display>(database: &Database<'_>, address: C::Address, out: &mut impl Write) -> io::Result<()> {
    let answer = lookup::<C>(database, address);
    write!(out, "{} ", answer.network)?;
    match answer.found {
        Found::Value(place) => match database.json(Global, place, LIMIT) {
            Ok(text) => out.write_all(&text)?,
            Err(e) => write!(out, "{e:?}")?,
        },
        other => write!(out, "{other:?}")?,
    }
    writeln!(out)
}

/// The next number of a sequence that looks random (xorshift).
fn next(state: &mut u64) -> u64 {
    *state ^= *state << 13;
    *state ^= *state >> 7;
    *state ^= *state << 17;
    *state
}

/// What has been tried.
#[derive(Default)]
struct Tried {
    files: u64,
    opened: u64,
    values: u64,
    longest: Duration,
}

impl Tried {
    /// Reads all that a file has, for a few addresses.
    fn read(&mut self, bytes: &[u8]) {
        let begun = Instant::now();
        self.files += 1;
        if let Ok(database) = open(bytes) {
            self.opened += 1;
            self.values += u64::from(database.metadata_json(Global, HOSTILE_LIMIT).is_ok());
            for number in [0u32, 0x8000_0000, 0xc000_0207] {
                self.value(&database, lookup::<Ipv4Cidr>(&database, Ipv4Cidr::from_number(number.into())).found);
                let number = u128::from(number) << 96 | 1;
                self.value(&database, lookup::<Ipv6Cidr>(&database, Ipv6Cidr::from_number(number)).found);
            }
        }
        self.longest = self.longest.max(begun.elapsed());
    }

    fn value(&mut self, database: &Database<'_>, found: Found) {
        let Found::Value(place) = found else { return };
        if let Ok(text) = database.json(Global, place, HOSTILE_LIMIT) {
            assert!(text.len() <= HOSTILE_LIMIT && std::str::from_utf8(&text).is_ok());
            self.values += 1;
        }
    }
}

fn hostile(seeds: &[&str]) -> io::Result<()> {
    let mut tried = Tried::default();
    let mut state = 0x9e37_79b9_7f4a_7c15;
    for seed in seeds {
        let whole = std::fs::read(seed)?;
        let mut bytes = whole.clone();
        for place in 0..whole.len() {
            for value in 0..=255 {
                bytes[place] = value;
                tried.read(&bytes);
            }
            bytes[place] = whole[place];
        }
        for len in 0..whole.len() {
            tried.read(&whole[..len]);
            tried.read(&whole[len..]);
        }
        for _ in 0..5_000 {
            for _ in 0..1 + next(&mut state) % 8 {
                let place = next(&mut state) as usize % bytes.len();
                bytes[place] = next(&mut state) as u8;
            }
            tried.read(&bytes);
            bytes.copy_from_slice(&whole);
        }
    }
    for _ in 0..100_000 {
        tried.read(&random(&mut state));
    }
    println!("{} files, {} opened, {} values, at most {:?} a file", tried.files, tried.opened, tried.values, tried.longest);
    Ok(())
}

/// A file whose tree, pointers and fields are random, and mostly lead into each other.
fn random(state: &mut u64) -> Vec<u8> {
    let (record_size, bytes_of_a_record) = [(24, 3), (32, 4)][next(state) as usize % 2];
    let nodes = 1 + next(state) % 40;
    let fields = 1 + next(state) % 60;
    let mut file = Vec::new();
    for _ in 0..2 * nodes {
        let record = next(state) % (nodes + 16 + 2 * fields);
        file.extend(&record.to_be_bytes()[8 - bytes_of_a_record..]);
    }
    file.extend([0; 16]);
    for _ in 0..fields {
        let one = next(state);
        match one % 8 {
            0 | 1 => file.extend([0x20 | (one >> 8) as u8 % 2, (one >> 16) as u8 % (2 * fields) as u8]),
            2 => file.extend([(one >> 8) as u8 % 5, 4]),
            3 => file.extend([0xe0 | (one >> 8) as u8 % 4]),
            4 => file.extend([0x41, b'a']),
            5 => file.extend([0x5d, one as u8]),
            _ => file.extend([(one >> 8) as u8, (one >> 16) as u8]),
        }
    }
    file.extend(b"\xab\xcd\xefMaxMind.com\xe3");
    file.extend(b"\x4anode_count\xc1");
    file.push(nodes as u8);
    file.extend(b"\x4brecord_size\xa1");
    file.push(record_size);
    file.extend(b"\x4aip_version\xa1");
    file.push(4 + 2 * (next(state) % 2) as u8);
    file
}

fn time(bytes: &[u8], rounds: u32) -> io::Result<()> {
    let begun = Instant::now();
    for _ in 0..rounds {
        black_box(open(black_box(bytes)).is_ok());
    }
    let opening = begun.elapsed() / rounds;
    let database = open(bytes).expect("a file");
    let mut state = 0x9e37_79b9_7f4a_7c15;
    let addresses: Vec<_> = (0..rounds).map(|_| Ipv4Cidr::from_number((next(&mut state) as u32).into())).collect();
    let begun = Instant::now();
    let mut found = 0;
    for address in &addresses {
        found += u32::from(matches!(lookup::<Ipv4Cidr>(&database, *address).found, Found::Value(_)));
    }
    let looking = begun.elapsed().as_nanos() as f64 / f64::from(rounds);
    let begun = Instant::now();
    let mut written = 0;
    for address in &addresses {
        if let Found::Value(place) = lookup::<Ipv4Cidr>(&database, *address).found {
            written += database.json(Global, place, LIMIT).map_or(0, |text| text.len());
        }
    }
    let reading = begun.elapsed().as_nanos() as f64 / f64::from(rounds);
    println!("opening {opening:?}, a look-up {looking:.1} ns, one with its value {reading:.1} ns ({found} found, {written} bytes)");
    Ok(())
}
