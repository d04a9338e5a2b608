//! How pairs are printed, and what each type of pairs has alone.

use crate::answer::Answer;
use crate::line_error::{LineError, Outcome};
use crate::pairs::{pair, PairType};
use crate::tokens::Tokens;
use crate::values::Value;
use cidr::{IpInetPair, Ipv4InetPair, Ipv6InetPair};
use std::fmt::Display;

/// Answers the plain and then the forced texts, each by the call for texts and by `Display`.
fn plain_and_forced<P: Display, F: Display>(
    answer: &mut Answer,
    plain: &P,
    plain_text: &str,
    forced: &F,
    forced_text: &str,
) -> Outcome {
    answer.text(&plain_text)?;
    answer.text(plain)?;
    answer.text(&forced_text)?;
    answer.text(forced)
}

impl PairType for Ipv4InetPair {
    fn texts(&self, answer: &mut Answer) -> Outcome {
        let forced = self.with_length();
        plain_and_forced(answer, self, &self.to_text(), &forced, &forced.to_text())
    }

    fn answer_own(_name: &str, _tokens: &mut Tokens<'_>, _answer: &mut Answer) -> Outcome {
        Err(LineError::Malformed)
    }
}

impl PairType for Ipv6InetPair {
    fn texts(&self, answer: &mut Answer) -> Outcome {
        let forced = self.with_length();
        plain_and_forced(answer, self, &self.to_text(), &forced, &forced.to_text())
    }

    fn answer_own(_name: &str, _tokens: &mut Tokens<'_>, _answer: &mut Answer) -> Outcome {
        Err(LineError::Malformed)
    }
}

impl PairType for IpInetPair {
    fn texts(&self, answer: &mut Answer) -> Outcome {
        let forced = self.with_length();
        plain_and_forced(answer, self, &self.to_text(), &forced, &forced.to_text())
    }

    fn answer_own(name: &str, tokens: &mut Tokens<'_>, answer: &mut Answer) -> Outcome {
        if name != "is" {
            return Err(LineError::Malformed);
        }
        let pair = pair::<IpInetPair>(tokens)?;
        answer.value(&(pair.is_ipv4(), pair.is_ipv6()))
    }
}

/// Pairs stand as their two hosts.
impl Value for Ipv4InetPair {
    fn push_to(&self, answer: &mut Answer) -> Outcome {
        answer.value(&self.first())?;
        answer.value(&self.second())
    }
}

impl Value for Ipv6InetPair {
    fn push_to(&self, answer: &mut Answer) -> Outcome {
        answer.value(&self.first())?;
        answer.value(&self.second())
    }
}

impl Value for IpInetPair {
    fn push_to(&self, answer: &mut Answer) -> Outcome {
        answer.value(&self.first())?;
        answer.value(&self.second())
    }
}
