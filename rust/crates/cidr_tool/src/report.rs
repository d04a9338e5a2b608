//! The exit status, and what is written to standard error.

use crate::errors::{Fault, ToolError};
use cidr_support::arrayvec::ArrayString;
use cidr_io::sink::Sink;
use cidr_io::writing::say;

const USAGE: &str =
    "usage: cidr_tool show NET | in NET ADDR | cmp NET NET | walk NET ENDS | bytes NET | loose TEXT\n";

/// The longest message of an error, and a line feed.
const MOST_LINE: usize = 100;

/// The line of a refusal, which is the error's message.
#[inline]
fn refused_line(fault: &Fault) -> ArrayString<MOST_LINE> {
    let mut line = ArrayString::new();
    line.push_str(fault.to_text().as_str());
    line.push_str("\n");
    line
}

/// Writes the line of a refusal, as far as the sink takes it.
#[inline]
fn say_refused<E: Sink>(err: &mut E, fault: &Fault) {
    say(err, refused_line(fault).as_str());
}

/// Writes the line that belongs to an answer, if there is one, and returns the exit status whatever the sink does:
/// 0 for an answer, 1 for a refusal, 2 for usage, 3 where the output failed.
pub fn report<E: Sink>(answer: &Result<(), ToolError>, err: &mut E) -> u8 {
    match answer {
        Ok(()) => 0,
        Err(ToolError::Refused(fault)) => {
            say_refused(err, fault);
            1
        }
        Err(ToolError::Usage) => {
            say(err, USAGE);
            2
        }
        Err(ToolError::Output) => {
            say(err, "output failed\n");
            3
        }
    }
}

/// Says that there is no memory for the arguments, and returns the exit status, which is that of a failed output.
#[inline]
pub fn report_no_memory<E: Sink>(err: &mut E) -> u8 {
    say(err, "no memory\n");
    3
}
