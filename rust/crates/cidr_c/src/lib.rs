//! `cidr` for C and Python: values by value, strings by pointer and length.
#![no_std]
#![deny(unsafe_code)]
#![allow(unused_imports, unused_variables, dead_code, unstable_name_collisions)]
#![allow(clippy::style, clippy::complexity, clippy::perf)]
#![allow(clippy::manual_unwrap_or_default, clippy::non_canonical_partial_ord_impl)]
extern crate std;

mod exports;
mod pointers;

mod around;
mod batches;
mod bytes;
mod codes;
mod comparing;
mod counting;
mod covering;
mod entries;
mod exploded;
mod faults;
mod files;
mod finding;
mod forwarding;
mod inside_ipv6;
mod labels;
mod lines;
mod lists;
mod lookups;
mod mask_texts;
mod masks;
mod mmdb;
mod names;
mod nested;
mod ordering;
mod parts;
mod plan_words;
mod plans;
mod pools;
mod printing;
mod ranges;
mod reading;
mod routes;
mod rows;
mod rules;
mod sets;
mod special;
mod subnets;
mod tables;
mod values;
mod writing;
