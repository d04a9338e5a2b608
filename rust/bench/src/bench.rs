//! Rows of the benchmark, and how they are timed.

use crate::values::{mixed, partner};
use cidr_support::alloc::AllocError;
use cidr_support::arrayvec::ArrayString;
use std::time::Instant;

/// Work that is done in rounds.
pub trait Work: Sized {
    /// Does the work of one round, and takes each result into the sum.
    fn round(&mut self, round: u32, sum: u32) -> u32;
}

/// A call with one input.
pub trait Call<T>: Sized {
    /// Makes the call, and returns a number that hangs on all of its result.
    fn number(&self, input: &T) -> u32;
}

/// A call with two inputs.
pub trait Call2<T, U>: Sized {
    /// Makes the call, and returns a number that hangs on all of its result.
    fn number(&self, one: &T, other: &U) -> u32;
}

/// A call with each of the inputs in a round.
struct Each<'a, C, T>(C, &'a [T]);

impl<C: Call<T>, T> Work for Each<'_, C, T> {
    fn round(&mut self, _round: u32, sum: u32) -> u32 {
        called(sum, &self.0, self.1)
    }
}

/// Makes a call with each of the inputs, and takes each result into the sum.
#[inline(never)]
pub fn called<C: Call<T>, T>(sum: u32, call: &C, inputs: &[T]) -> u32 {
    let mut sum = sum;
    for input in inputs {
        sum = mixed(sum, call.number(input));
    }
    sum
}

/// How often the work has its turn. The least time counts.
const TURNS: u32 = 5;

/// How often two lists are gone over in a round, since their calls are short.
const PASSES: u32 = 16;

/// A call with each value of a list and one of another list, which differs from pass to pass.
struct Pairs<'a, C, T, U>(C, &'a [T], &'a [U]);

impl<C: Call2<T, U>, T, U> Pairs<'_, C, T, U> {
    /// Goes over the lists once.
    #[inline(never)]
    fn pass(&self, pass: u32, sum: u32) -> u32 {
        let mut sum = sum;
        for (index, one) in self.1.iter().enumerate() {
            if let Some(other) = self.2.get(partner(pass, index)) {
                sum = mixed(sum, self.0.number(one, other));
            }
        }
        sum
    }
}

impl<C: Call2<T, U>, T, U> Work for Pairs<'_, C, T, U> {
    fn round(&mut self, round: u32, sum: u32) -> u32 {
        let mut sum = sum;
        for pass in 0..PASSES {
            sum = self.pass(round.wrapping_mul(PASSES).wrapping_add(pass), sum);
        }
        sum
    }
}

/// A row's name.
pub type Name = ArrayString<96>;

/// A row's name in two parts.
pub fn named(work: &str, of: &str) -> Name {
    let mut name = Name::new();
    let _ = name.try_push_str(work);
    if !of.is_empty() {
        let _ = name.try_push_str(" ");
        let _ = name.try_push_str(of);
    }
    name
}

/// What the program is asked to do.
pub struct Bench<'a> {
    /// How many rounds a turn has.
    pub rounds: u32,
    /// What the names of the rows that are to be done contain.
    pub row: &'a str,
    /// Whether that is a whole name.
    pub is_whole: bool,
    /// What the names of the rows end with, behind a space.
    pub of: &'a str,
    /// Whether each row is done once and not printed.
    pub quiet: bool,
}

impl Bench<'_> {
    /// The same, with as many times fewer rounds, for work of many calls.
    pub fn slower(&self, times: u32) -> Bench<'_> {
        Bench {
            rounds: (self.rounds / times.max(1)).max(1),
            row: self.row,
            is_whole: self.is_whole,
            of: self.of,
            quiet: self.quiet,
        }
    }

    /// The same, for rows whose names end with this.
    pub fn of<'b>(&'b self, of: &'b str) -> Bench<'b> {
        Bench {
            rounds: self.rounds,
            row: self.row,
            is_whole: self.is_whole,
            of,
            quiet: self.quiet,
        }
    }

    /// The same, for all rows.
    pub fn all(&self) -> Bench<'_> {
        Bench {
            rounds: self.rounds,
            row: "",
            is_whole: false,
            of: self.of,
            quiet: self.quiet,
        }
    }

    /// Whether the row with this name is to be done.
    pub fn wants(&self, name: &str) -> bool {
        if self.is_whole {
            name == self.row
        } else {
            name.contains(self.row)
        }
    }

    /// Makes a call with each value in a round, and prints its line.
    pub fn each<T, C: Call<T>>(&self, work: &str, call: C, values: &[T]) -> Result<(), AllocError> {
        self.time(work, values.len(), Each(call, values))
    }

    /// Makes a call with pairs of values of two lists, and prints its line.
    pub fn pairs<T, U, C: Call2<T, U>>(&self, work: &str, call: C, ones: &[T], others: &[U]) -> Result<(), AllocError> {
        let calls = ones.len().saturating_mul(PASSES as usize);
        self.time(work, calls, Pairs(call, ones, others))
    }

    /// Does work of so many calls a round, and prints its line with the number of all rounds of a turn.
    pub fn time<W: Work>(&self, work_name: &str, calls: usize, mut work: W) -> Result<(), AllocError> {
        let name = named(work_name, self.of);
        if !self.wants(name.as_str()) {
            return Ok(());
        }
        if self.quiet {
            let _ = turn(&mut work, 1);
            return Ok(());
        }
        let (mut least, mut sum) = (u128::MAX, 0);
        for _ in 0..TURNS {
            let start = Instant::now();
            sum = turn(&mut work, self.rounds);
            least = least.min(start.elapsed().as_nanos());
        }
        let all = u128::from(self.rounds) * calls as u128;
        self.print(name.as_str(), least, all, sum)
    }

    /// Prints the line of a row: its name, the nanoseconds of one of so many calls, and a number that hangs on all
    /// results. Nothing is printed where each row is done once.
    pub fn print(&self, name: &str, nanoseconds: u128, calls: u128, sum: u32) -> Result<(), AllocError> {
        if self.quiet {
            return Ok(());
        }
        let time = nanoseconds.saturating_mul(1000) / calls.max(1);
        println!("{name}\t{}.{:03}\t{sum}", time / 1000, time % 1000);
        Ok(())
    }
}

/// Does so many rounds of some work.
fn turn<W: Work>(work: &mut W, rounds: u32) -> u32 {
    let mut sum = 0;
    for round in 0..rounds {
        sum = work.round(round, sum);
    }
    sum
}
