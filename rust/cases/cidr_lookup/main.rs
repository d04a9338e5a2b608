//! Look-ups in a large table, which is made ready and is a table again.

use cidr::{Ipv4Addr, Ipv4Cidr};
use cidr_lookup::ReadyTable;
use cidr_table::alloc::Global;
use cidr_table::LpmTable;

/// How many networks there are beside the default one.
const BLOCKS: u32 = 20_000;

/// The network of 4,096 addresses with this number, the first of which has the number 0.
fn block(number: u32) -> Ipv4Cidr {
    Ipv4Cidr::new(Ipv4Addr::from_bits(number << 12), 20).unwrap()
}

/// One address of that network.
fn address(number: u32) -> Ipv4Cidr {
    Ipv4Cidr::new_host(Ipv4Addr::from_bits((number << 12) | 77))
}

fn default() -> Ipv4Cidr {
    "0.0.0.0/0".parse().unwrap()
}

/// The default network, and each second block with half its number.
fn routes() -> LpmTable<Ipv4Cidr, u32> {
    let mut routes = LpmTable::with_capacity(Global, BLOCKS as usize + 1).unwrap();
    routes.set(default(), BLOCKS).unwrap();
    for i in 0..BLOCKS {
        routes.set(block(2 * i), i).unwrap();
    }
    routes
}

/// What a look-up in the network of this number has to find: itself, or the default one.
fn wanted(number: u32) -> (Ipv4Cidr, u32) {
    if number % 2 == 0 {
        (block(number), number / 2)
    } else {
        (default(), BLOCKS)
    }
}

#[test]
fn each_address_of_a_large_table_has_its_network_or_the_default() {
    let routes = routes();
    for i in 0..2 * BLOCKS {
        assert_eq!(routes.lookup(&address(i)), Some(&wanted(i)));
    }
    assert_eq!(routes.capacity(), BLOCKS as usize + 1);
}

#[test]
fn a_large_table_that_was_made_ready_is_a_table_again() {
    let Ok(ready) = ReadyTable::new(Global, routes()) else {
        panic!("no memory");
    };
    for i in 0..2 * BLOCKS {
        assert_eq!(ready.lookup(&address(i)), Some(&wanted(i)));
    }
    assert_eq!(ready.table().len(), BLOCKS as usize + 1);
    let mut routes = ready.into_table();
    assert_eq!(routes.remove(&default()), Some(BLOCKS));
    assert!(routes.lookup(&address(1)).is_none());
}
