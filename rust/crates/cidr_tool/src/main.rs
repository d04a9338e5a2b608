//! A program over the crate `cidr`: it answers questions about IP networks.
#![no_main]
#![deny(unsafe_code)]
#![allow(unused_imports, unused_variables, dead_code, unstable_name_collisions)]
#![allow(clippy::style, clippy::complexity, clippy::perf)]
#![allow(clippy::manual_unwrap_or_default, clippy::non_canonical_partial_ord_impl)]

mod commands;
mod errors;
mod program;
mod report;
mod run;
mod walks;

use cidr_system::rt::HostRuntime;
use cidr_io::arguments::SystemArguments;
use cidr_io::memory::Heap;
use cidr_io::sink::Tracked;
use program::program;
use cidr_system::process::ExitCode;

cidr_system::main!(run);

fn run(rt: HostRuntime) -> ExitCode {
    let (mut out, mut err) = (Tracked::new(rt.stdout()), Tracked::new(rt.stderr()));
    let mut memory = Heap::new(rt.alloc());
    ExitCode::from(program(
        &mut memory,
        &SystemArguments { system: &rt },
        &mut out,
        &mut err,
    ))
}
