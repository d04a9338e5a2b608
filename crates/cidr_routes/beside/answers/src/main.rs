//! Answers questions about routes of one family, ipv4 or ipv6, which the argument names. Lines of the standard input:
//!
//!     payload NETWORK MAX_LENGTH AS        a payload
//!     row LIST permit|deny NETWORK LOW HIGH        a row of a prefix list, by the name of the list
//!     read LIST FILE        a prefix list in a file, as Cisco IOS and FRR write it
//!     write LIST NAME        prints the rows of a list as those of a list of this name, as Cisco IOS and FRR read them
//!     validity NETWORK AS        prints valid, invalid or unknown; AS is - for a path that ends in a set
//!     permits LIST NETWORK        prints true or false
//!     shadowed LIST        prints the indices of the rows that decide nothing
//!     permitted LIST        prints how many rows are permitted, and makes these the list
//!     same LIST LIST        prints same, or a network, a length and first or second
//!
//! The payloads stand before the first question about them.

use cidr::{Ipv4Cidr, Ipv6Cidr};
use cidr_lists::prefix_lists::{in_order, push_rows, NumberedRow, NumberedRows};
use cidr_lookup::Keyed;
use cidr_routes::lists::{difference, permits, permitted, shadowed, Row};
use cidr_routes::{Payload, Payloads, Validity};
use cidr_sets::access::Action;
use cidr_support::alloc::Global;
use std::collections::HashMap;
use std::fmt::{Debug, Display};
use std::io::{self, BufRead, Write};
use std::str::FromStr;

fn main() {
    match std::env::args().nth(1).as_deref() {
        Some("ipv4") => answer::<Ipv4Cidr>(|read| read.v4.as_slice()),
        Some("ipv6") => answer::<Ipv6Cidr>(|read| read.v6.as_slice()),
        _ => panic!("ipv4 or ipv6"),
    }
}

fn number<N: FromStr>(text: &str) -> N
where
    N::Err: Debug,
{
    text.parse().unwrap()
}

fn answer<C: Keyed + FromStr + Display>(of_family: fn(&NumberedRows) -> &[NumberedRow<C>])
where
    C::Err: Debug,
{
    let mut payloads = Vec::new();
    let mut ready: Option<Payloads<C>> = None;
    let mut lists: HashMap<String, Vec<Row<C>>> = HashMap::new();
    let mut out = io::BufWriter::new(io::stdout().lock());
    for line in io::stdin().lock().lines() {
        let line = line.unwrap();
        let words: Vec<&str> = line.split(' ').collect();
        match words[..] {
            ["payload", network, max_length, origin] => payloads.push(Payload {
                network: number(network),
                max_length: number(max_length),
                origin: number(origin),
            }),
            ["row", list, action, network, low, high] => lists.entry(list.to_string()).or_default().push(Row {
                action: if action == "permit" { Action::Permit } else { Action::Deny },
                network: number(network),
                low: number(low),
                high: number(high),
            }),
            ["read", list, file] => {
                let text = std::fs::read(file).unwrap();
                let read = NumberedRows::of_text(Global, list.as_bytes(), &text).unwrap();
                lists.insert(list.to_string(), in_order(Global, of_family(&read)).unwrap().as_slice().to_vec());
            }
            ["write", list, name] => {
                let mut text = cidr_support::vec::Vec::new(Global);
                push_rows(&mut text, name.as_bytes(), &lists[list]).unwrap();
                out.write_all(text.as_slice()).unwrap();
            }
            ["validity", network, origin] => {
                let held = ready.get_or_insert_with(|| {
                    Payloads::new(Global, cidr_support::vec::Vec::from_slice(Global, &payloads).unwrap()).unwrap()
                });
                let origin = if origin == "-" { None } else { Some(number(origin)) };
                let text = match held.validity(&number(network), origin) {
                    Validity::Valid => "valid",
                    Validity::InvalidLength | Validity::InvalidOrigin => "invalid",
                    Validity::NotFound => "unknown",
                };
                writeln!(out, "{text}").unwrap();
            }
            ["permits", list, network] => writeln!(out, "{}", permits(&lists[list], &number(network))).unwrap(),
            ["shadowed", list] => {
                let indices = shadowed(Global, &lists[list]).unwrap();
                let texts: Vec<String> = indices.as_slice().iter().map(usize::to_string).collect();
                writeln!(out, "{}", texts.join(" ")).unwrap();
            }
            ["permitted", list] => {
                let rows = permitted(Global, &lists[list]).unwrap().as_slice().to_vec();
                writeln!(out, "{}", rows.len()).unwrap();
                lists.insert(list.to_string(), rows);
            }
            ["same", one, other] => match difference(Global, &lists[one], &lists[other]).unwrap() {
                None => writeln!(out, "same").unwrap(),
                Some(it) => {
                    let side = if it.by_first { "first" } else { "second" };
                    writeln!(out, "{} {} {side}", it.network, it.len).unwrap();
                }
            },
            _ => panic!("{line}"),
        }
    }
}
