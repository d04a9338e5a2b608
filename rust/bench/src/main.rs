//! Times calls of the libraries, each alone.
//!
//! The first argument is the number of rounds of a turn, and a second one, if given, is a part of the names of the rows
//! to be done; with a third one it is the name of one row, of no table and no set. Each line has the row's name, the
//! nanoseconds that one call takes, the least of five turns, and a number that hangs on all results of a turn, with a
//! tab between each two. The programs beside have the same number where they do the same work in another way. Without
//! an argument each row but those of large tables is done once, and nothing is printed.
//!
//! With `growth` as the second argument the first one is a number of rows and networks, on which calls are made once a
//! turn.

mod bench;
mod bits;
mod bytes;
mod changing;
mod containing;
mod covering;
mod growth;
mod idle;
mod loading;
mod loose;
mod numbers;
mod ordering;
mod printing;
mod reading;
mod routes;
mod rules;
mod samples;
mod sets;
mod stepping;
mod tables;
mod values;
mod walking;

use bench::Bench;
use cidr_support::alloc::AllocError;
use std::env;

fn main() {
    let words: Vec<String> = env::args().skip(1).collect();
    let rounds = words.first().and_then(|it| it.parse::<u32>().ok()).unwrap_or(0);
    let asked = Bench {
        rounds: rounds.max(1),
        row: words.get(1).map_or("", String::as_str),
        is_whole: words.len() > 2,
        of: "",
        quiet: rounds == 0,
    };
    run(&asked).expect("memory is refused");
}

/// Does the rows that are asked for.
fn run(bench: &Bench<'_>) -> Result<(), AllocError> {
    if bench.row == "growth" {
        return growth::time_all(&bench.all().slower(bench.rounds), bench.rounds as usize);
    }
    time_texts(bench)?;
    time_numbers(bench)?;
    if bench.is_whole {
        return Ok(());
    }
    time_many(bench)
}

/// Does the rows of texts and bytes.
fn time_texts(bench: &Bench<'_>) -> Result<(), AllocError> {
    reading::time_all(&bench.slower(16))?;
    loose::time_all(bench)?;
    printing::time_all(&bench.slower(16))?;
    bytes::time_all(&bench.slower(16))
}

/// Does the rows of single addresses and networks.
fn time_numbers(bench: &Bench<'_>) -> Result<(), AllocError> {
    idle::time_all(bench)?;
    containing::time_all(bench)?;
    ordering::time_all(bench)?;
    bits::time_all(bench)?;
    stepping::time_all(bench)?;
    walking::time_all(bench)
}

/// Does the rows of tables and sets.
fn time_many(bench: &Bench<'_>) -> Result<(), AllocError> {
    tables::time_all(&bench.slower(500))?;
    loading::time_all(&bench.slower(1_000))?;
    covering::time_all(&bench.slower(100))?;
    sets::time_all(&bench.slower(1_000))?;
    rules::time_all(&bench.slower(bench.rounds))?;
    if bench.quiet {
        return growth::time_all(bench, 1_000);
    }
    Ok(())
}
