//! The trait of the crate `bitstring`, for the feature of that name of the edition over `core::net`: its check has no network. No
//! program should use this.
#![no_std]

pub trait BitString {
    fn get(&self, ndx: usize) -> bool;
    fn set(&mut self, ndx: usize, bit: bool);
    fn flip(&mut self, ndx: usize);
    fn len(&self) -> usize;
    fn clip(&mut self, len: usize);
    fn append(&mut self, bit: bool);
    fn null() -> Self;
    fn shared_prefix_len(&self, other: &Self) -> usize;
}
