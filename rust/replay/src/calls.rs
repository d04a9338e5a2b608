//! How often parsers call the closures that they get.

use crate::answer::Answer;
use crate::line_error::{LineError, Outcome};
use crate::tokens::{Kind, Tokens};
use cidr::parsers::{parse_any_cidr_full, parse_cidr};
use cidr::IpCidr;
use std::cell::Cell;
use std::str::FromStr;

/// Parses a string, and counts this call.
fn counted<V: FromStr>(count: &Cell<u32>, text: &str) -> Result<V, V::Err> {
    count.set(count.get() + 1);
    text.parse()
}

/// Answers how often the parser of this name calls the closure for addresses, and that for strings with no slash.
pub fn answer(name: &str, tokens: &mut Tokens<'_>, answer: &mut Answer) -> Outcome {
    let kind = tokens.kind()?;
    let text = tokens.text()?;
    let (addresses, hosts) = (Cell::new(0), Cell::new(0));
    match (name, kind) {
        ("parse_cidr", Kind::Ip) => {
            let _ = parse_cidr::<IpCidr, _>(&text, |part| counted(&addresses, part));
            answer.display(&addresses.get())
        }
        ("parse_any_cidr_full", Kind::Any) => {
            let of_host = |whole: &str| counted(&hosts, whole);
            let _ = parse_any_cidr_full(&text, |part| counted(&addresses, part), of_host);
            answer.display(&addresses.get())?;
            answer.display(&hosts.get())
        }
        _ => Err(LineError::Malformed),
    }
}
