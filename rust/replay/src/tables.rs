//! Operations on a longest-prefix table, which a line builds step by step.

use crate::answer::Answer;
use crate::line_error::{LineError, Outcome};
use crate::tokens::Tokens;
use crate::values::Value;
use cidr::errors::NetworkParseError;
use cidr::{AnyIpCidr, Ipv4Cidr, Ipv6Cidr, NetworkBits, PrefixBytes};
use cidr_table::alloc::Global;
use cidr_table::{longest_match, LoadError, LpmTable};
use std::str::FromStr;

/// The types of keys.
pub trait Key: NetworkBits + Copy + FromStr<Err = NetworkParseError> + Value {
    /// Appends the key to the last token.
    fn more_to(&self, answer: &mut Answer) -> Outcome;
}

impl Key for Ipv4Cidr {
    fn more_to(&self, answer: &mut Answer) -> Outcome {
        answer.more(&self.with_length())
    }
}

impl Key for Ipv6Cidr {
    fn more_to(&self, answer: &mut Answer) -> Outcome {
        answer.more(&self.with_length())
    }
}

impl Key for AnyIpCidr {
    fn more_to(&self, answer: &mut Answer) -> Outcome {
        answer.more(&self.with_length())
    }
}

/// Answers the steps on an empty table, and then all its rows.
pub fn answer<C: Key>(tokens: &mut Tokens<'_>, answer: &mut Answer) -> Outcome {
    answer_steps::<C>(LpmTable::new(Global), tokens, answer)
}

/// Answers the steps on the table that prefix bytes are loaded as, or why they are refused.
pub fn answer_load<C: Key + PrefixBytes>(tokens: &mut Tokens<'_>, answer: &mut Answer) -> Outcome {
    let bytes = tokens.bytes()?;
    match LpmTable::<C, usize>::load(Global, &bytes) {
        Ok(table) => {
            answer.word("ok")?;
            answer_steps(table, tokens, answer)
        }
        Err(LoadError::Prefix(place, error)) => {
            tokens.skip_all();
            answer.word("err")?;
            answer.word("Prefix")?;
            answer.value(&place)?;
            answer.refusal(&error)
        }
        Err(LoadError::NoMemory) => Err(LineError::OutOfMemory),
    }
}

fn answer_steps<C: Key>(
    mut table: LpmTable<C, usize>,
    tokens: &mut Tokens<'_>,
    answer: &mut Answer,
) -> Outcome {
    while !tokens.is_empty() {
        answer_step(&mut table, tokens, answer)?;
    }
    answer.word("rows")?;
    for row in table.iter() {
        answer.word("")?;
        more_of_row(row, answer)?;
    }
    Ok(())
}

fn answer_step<C: Key>(
    table: &mut LpmTable<C, usize>,
    tokens: &mut Tokens<'_>,
    answer: &mut Answer,
) -> Outcome {
    match tokens.word()? {
        "insert" => match table.insert(tokens.value()?, tokens.number()?) {
            Ok(before) => answer.value(&before),
            Err(_) => Err(LineError::OutOfMemory),
        },
        "remove" => answer.value(&table.remove(&tokens.value()?)),
        "get" => answer.value(&table.get(&tokens.value()?).copied()),
        "match" => answer_match(table, &tokens.value()?, answer),
        "inside" => answer_rows(table.inside(&tokens.value()?), answer),
        "row" => answer_row(table.row(tokens.number()?), answer),
        _ => Err(LineError::Malformed),
    }
}

/// The row of the longest match behind its place.
fn answer_match<C: Key>(table: &LpmTable<C, usize>, asked: &C, answer: &mut Answer) -> Outcome {
    let Some(place) = longest_match(&mut table.probe(), asked) else {
        return answer.word("none");
    };
    let Some(row) = table.row(place) else {
        return answer.word("none");
    };
    answer.display(&format_args!("{place}@"))?;
    more_of_row(row, answer)
}

fn answer_row<C: Key>(row: Option<&(C, usize)>, answer: &mut Answer) -> Outcome {
    match row {
        Some(row) => {
            answer.word("")?;
            more_of_row(row, answer)
        }
        None => answer.word("none"),
    }
}

/// The rows between brackets, with commas between them.
fn answer_rows<C: Key>(rows: &[(C, usize)], answer: &mut Answer) -> Outcome {
    answer.word("[")?;
    for (i, row) in rows.iter().enumerate() {
        if i > 0 {
            answer.more(&',')?;
        }
        more_of_row(row, answer)?;
    }
    answer.more(&']')
}

/// Appends a row to the last token.
fn more_of_row<C: Key>(row: &(C, usize), answer: &mut Answer) -> Outcome {
    row.0.more_to(answer)?;
    answer.more(&format_args!("={}", row.1))
}
