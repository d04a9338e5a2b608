//! What addresses, networks and hosts have in common: they are read, compared and printed.

use crate::answer::Answer;
use crate::line_error::Outcome;
use crate::refusals::Refusal;
use crate::tokens::Tokens;
use crate::values::Value;
use std::fmt::Display;
use std::str::FromStr;

mod texts;

/// The calls that print networks and hosts.
pub trait HasTexts {
    /// Answers the printed texts, each by the call for texts and by `Display`.
    fn texts(&self, answer: &mut Answer) -> Outcome;
}

/// Answers what a text is read as.
pub fn parse<V: FromStr + Value>(tokens: &mut Tokens<'_>, answer: &mut Answer) -> Outcome
where
    V::Err: Refusal,
{
    let text = tokens.text()?;
    answer.value(&text.parse::<V>())
}

/// Answers the order of two values.
pub fn compare<V: FromStr + Ord>(tokens: &mut Tokens<'_>, answer: &mut Answer) -> Outcome
where {
    let one = tokens.value::<V>()?;
    let other = tokens.value::<V>()?;
    answer.value(&one.cmp(&other))
}

/// Answers the plain and then the forced texts, each by the call for texts and by `Display`.
fn plain_and_forced<P: Display, F: Display>(
    answer: &mut Answer,
    plain: &P,
    plain_text: &str,
    forced: &F,
    forced_text: &str,
) -> Outcome {
    answer.word(plain_text)?;
    answer.display(plain)?;
    answer.word(forced_text)?;
    answer.display(forced)
}
