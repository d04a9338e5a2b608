//! A program for lists of networks.
#![no_main]
#![deny(unsafe_code)]
#![allow(unused_imports, unused_variables, dead_code, unstable_name_collisions)]
#![allow(clippy::style, clippy::complexity, clippy::perf)]
#![allow(clippy::manual_unwrap_or_default, clippy::non_canonical_partial_ord_impl)]

use cidr_system::rt::HostRuntime;
use cidr_io::arguments::SystemArguments;
use cidr_io::memory::Heap;
use cidr_io::sink::Tracked;
use netset_commands::input::files::System;
use netset_commands::output::folder::Beside;
use netset_commands::output::terminal::{Erasing, Progress};
use netset_commands::program::program;
use cidr_system::io::IsTerminal;
use cidr_system::process::ExitCode;

cidr_system::main!(run);

fn run(rt: HostRuntime) -> ExitCode {
    // answers on the same terminal would stand beside what is shown
    let shows = rt.stderr().is_terminal() && !rt.stdout().is_terminal();
    let progress = Progress::new(&rt, shows);
    let mut out = Tracked::new(Erasing {
        out: rt.stdout(),
        progress: &progress,
    });
    let mut err = Tracked::new(Erasing {
        out: rt.stderr(),
        progress: &progress,
    });
    let sources = System {
        runtime: &rt,
        progress: &progress,
    };
    let mut folder = Beside {
        runtime: &rt,
        refused: None,
    };
    let arguments = SystemArguments { system: &rt };
    let mut memory = Heap::new(rt.alloc());
    ExitCode::from(program(
        &mut memory,
        &arguments,
        &sources,
        &mut folder,
        &mut out,
        &mut err,
    ))
}
