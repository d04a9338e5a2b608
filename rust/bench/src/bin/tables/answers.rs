//! Smallest tables with the same forwarding as the tables that are read.

use cidr_support::vec::Vec;
use crate::failure::Failure;
use crate::finding::LookedUp;
use cidr::NetworkBits;
use cidr::errors::NetworkParseError;
use cidr_forwarding::{SmallestTable, forwards_same};
use cidr_table::LpmTable;
use cidr_support::alloc::{AllocError, Global};
use core::fmt::Display;
use core::str::FromStr;
use std::time::Instant;

/// Does what the lines of standard input say.
pub fn write<C: LookedUp + Display + FromStr<Err = NetworkParseError>>(
    ) -> Result<(), Failure> {
    let text = std::io::read_to_string(std::io::stdin())?;
    let mut table = LpmTable::<C, u32>::new(Global);
    let mut asked = Vec::new(Global);
    for line in text.as_str().lines() {
        match line.split_once(' ') {
            Some(("ask", network)) => ask(&mut asked, network)?,
            Some((network, value)) => set(&mut table, network, value)?,
            None => {
                table = done(line, table, asked.as_slice())?;
                asked.clear();
            }
        }
    }
    Ok(())
}

/// Takes a look-up key.
fn ask<C: FromStr<Err = NetworkParseError> + Copy>(
    asked: &mut Vec<C>,
    network: &str,
) -> Result<(), Failure> {
    let network = network.parse::<C>()?;
    asked.push(network).map_err(|_| AllocError)?;
    Ok(())
}

/// Takes a row.
fn set<C: NetworkBits + Copy + FromStr<Err = NetworkParseError>>(
    table: &mut LpmTable<C, u32>,
    network: &str,
    value: &str,
) -> Result<(), Failure> {
    let network = network.parse::<C>()?;
    let value = value.parse::<u32>()?;
    table.set(network, value)?;
    Ok(())
}

/// Does what a line says, and returns the rows that are kept.
fn done<C: LookedUp + Display>(
    line: &str,
    table: LpmTable<C, u32>,
    asked: &[C],
) -> Result<LpmTable<C, u32>, Failure> {
    match line {
        "time" => time(&table)?,
        "holes" => write_with_holes(&table)?,
        "find" => C::write_found(table.iter().as_slice(), asked)?,
        "speed" => {
            C::write_speed(table.iter().as_slice(), asked)?;
            return Ok(table);
        }
        _ => write_smallest(&table)?,
    }
    Ok(LpmTable::new(Global))
}

/// Writes the rows of the smallest table, and whether it forwards the same.
fn write_smallest<C: NetworkBits + Copy + Display>(
    table: &LpmTable<C, u32>,
) -> Result<(), Failure> {
    let smallest = table.smallest(Global)?;
    for (network, value) in smallest.iter() {
        println!("{network} {value}");
    }
    println!("{}", forwards_same(table, &smallest));
    Ok(())
}

/// Writes the rows of the smallest table with holes.
fn write_with_holes<C: NetworkBits + Copy + Display>(
    table: &LpmTable<C, u32>,
) -> Result<(), Failure> {
    for (network, value) in table.smallest_with_holes(Global)?.iter() {
        match value {
            Some(value) => println!("{network} {value}"),
            None => println!("{network} none"),
        }
    }
    println!("true");
    Ok(())
}

/// Writes how many rows the table has and both smallest ones have, and the least microseconds of five turns.
fn time<C: NetworkBits + Copy>(table: &LpmTable<C, u32>) -> Result<(), Failure> {
    let (mut left, mut holed_left) = (0, 0);
    let (mut least, mut holed_least) = (u128::MAX, u128::MAX);
    for _ in 0..5 {
        let start = Instant::now();
        left = table.smallest(Global)?.len();
        least = least.min(start.elapsed().as_micros());
        let start = Instant::now();
        holed_left = table.smallest_with_holes(Global)?.len();
        holed_least = holed_least.min(start.elapsed().as_micros());
    }
    println!("{}\t{left}\t{least}\t{holed_left}\t{holed_least}",
        table.len()
    );
    Ok(())
}
