//! What helpers and collections do where no memory is left.

use cidr::{Ipv4Addr, Ipv4Cidr};
use cidr_sets::NetworkSet;
use cidr_support::alloc::{AllocError, Global};
use cidr_support::string::String;
use cidr_support::vec::Vec;
use cidr_table::LpmTable;
use std::alloc::{GlobalAlloc, Layout, System};
use std::cell::Cell;
use std::panic::{catch_unwind, UnwindSafe};

struct Refusing;

thread_local! {
    /// The most bytes that a test is given at once, until it asked for more.
    static MOST: Cell<usize> = const { Cell::new(usize::MAX) };
}

unsafe impl GlobalAlloc for Refusing {
    unsafe fn alloc(&self, layout: Layout) -> *mut u8 {
        if layout.size() > MOST.get() {
            MOST.set(usize::MAX); // what reports a failure needs memory
            return std::ptr::null_mut();
        }
        unsafe { System.alloc(layout) }
    }

    unsafe fn dealloc(&self, place: *mut u8, layout: Layout) {
        unsafe { System.dealloc(place, layout) }
    }
}

#[global_allocator]
static REFUSING: Refusing = Refusing;

fn with_most<T>(most: usize, call: impl FnOnce() -> T) -> T {
    MOST.set(most);
    let made = call();
    MOST.set(usize::MAX);
    made
}

#[test]
fn a_list_stays_as_it_was() {
    let mut list = Vec::from_array(Global, [(3, 1), (1, 2), (2, 3)]).unwrap();
    while list.len() < list.capacity() {
        list.push_reserved((0, 4));
    }
    let before = list.to_vec();
    let pushed = with_most(0, || list.push((7, 5)));
    assert_eq!(pushed.unwrap_err().value, (7, 5));
    let inserted = with_most(0, || list.insert(0, (8, 5)));
    assert_eq!(inserted.unwrap_err().value, (8, 5));
    assert_eq!(with_most(0, || list.reserve(1)), Err(AllocError));
    assert_eq!(with_most(0, || list.extend_from_slice(&[(9, 5)])), Err(AllocError));
    assert_eq!(with_most(0, || list.sort_by_key(|item| item.0)), Err(AllocError));
    assert_eq!(list.as_slice(), before);
}

#[test]
fn a_list_keeps_its_room() {
    let mut list = Vec::with_capacity(Global, 9).unwrap();
    list.push(7).unwrap();
    with_most(0, || list.shrink_to_fit());
    assert_eq!((list.as_slice(), list.capacity()), (&[7][..], 9));
}

#[test]
fn no_list_is_made() {
    assert_eq!(with_most(0, || Vec::<u8>::with_capacity(Global, 1)), Err(AllocError));
    assert_eq!(with_most(0, || Vec::from_slice(Global, &[1])), Err(AllocError));
    assert_eq!(with_most(0, || Vec::from_array(Global, [1])), Err(AllocError));
    assert_eq!(with_most(0, || Vec::from_elem(Global, 1, 1)), Err(AllocError));
    assert!(with_most(0, || String::from_str(Global, "::1")).is_err());
}

fn panics<T>(what: &str, call: impl FnOnce() -> T + UnwindSafe) {
    assert!(with_most(4000, || catch_unwind(call).is_err()), "{what} returns");
}

#[test]
fn collections_panic() {
    // Hosts that are no halves of one network.
    let networks = || (0..1000_u16).map(|n| Ipv4Cidr::new_host(Ipv4Addr::new(10, 0, (n >> 7) as u8, (n << 1) as u8)));
    let set: NetworkSet<_> = networks().collect();
    let table: LpmTable<_, _> = networks().map(|network| (network, ())).collect();
    panics("collect of a set", || networks().collect::<NetworkSet<_>>());
    panics("collect of a table", || networks().map(|network| (network, ())).collect::<LpmTable<_, _>>());
    panics("clone of a table", || table.clone());
    panics("clone of a set", || set.clone());
}
