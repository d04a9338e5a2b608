//! Values as they stand in answers.

use crate::answer::Answer;
use crate::line_error::Outcome;
use crate::refusals::Refusal;
use cidr::{
    AnyIpCidr, Family, IpAddr, IpCidr, IpInet, Ipv4Addr, Ipv4Cidr, Ipv4Inet, Ipv6Addr, Ipv6Cidr,
    Ipv6Inet,
};
use std::cmp::Ordering;

/// What can stand in an answer.
pub trait Value {
    /// Appends the value's token or tokens.
    fn push_to(&self, answer: &mut Answer) -> Outcome;
}

impl Value for Ipv4Addr {
    fn push_to(&self, answer: &mut Answer) -> Outcome {
        answer.display(self)
    }
}

impl Value for Ipv6Addr {
    fn push_to(&self, answer: &mut Answer) -> Outcome {
        answer.display(self)
    }
}

impl Value for IpAddr {
    fn push_to(&self, answer: &mut Answer) -> Outcome {
        answer.display(self)
    }
}

/// Networks and hosts stand with their lengths, also at full length.
impl Value for Ipv4Cidr {
    fn push_to(&self, answer: &mut Answer) -> Outcome {
        answer.display(&self.with_length())
    }
}

impl Value for Ipv6Cidr {
    fn push_to(&self, answer: &mut Answer) -> Outcome {
        answer.display(&self.with_length())
    }
}

impl Value for IpCidr {
    fn push_to(&self, answer: &mut Answer) -> Outcome {
        answer.display(&self.with_length())
    }
}

impl Value for AnyIpCidr {
    fn push_to(&self, answer: &mut Answer) -> Outcome {
        answer.display(&self.with_length())
    }
}

impl Value for Ipv4Inet {
    fn push_to(&self, answer: &mut Answer) -> Outcome {
        answer.display(&self.with_length())
    }
}

impl Value for Ipv6Inet {
    fn push_to(&self, answer: &mut Answer) -> Outcome {
        answer.display(&self.with_length())
    }
}

impl Value for IpInet {
    fn push_to(&self, answer: &mut Answer) -> Outcome {
        answer.display(&self.with_length())
    }
}

/// Numbers stand in decimal.
impl Value for u8 {
    fn push_to(&self, answer: &mut Answer) -> Outcome {
        answer.display(self)
    }
}

impl Value for usize {
    fn push_to(&self, answer: &mut Answer) -> Outcome {
        answer.display(self)
    }
}

impl Value for bool {
    fn push_to(&self, answer: &mut Answer) -> Outcome {
        answer.display(self)
    }
}

impl Value for Family {
    fn push_to(&self, answer: &mut Answer) -> Outcome {
        answer.word(match self {
            Family::Ipv4 => "Ipv4",
            Family::Ipv6 => "Ipv6",
        })
    }
}

impl Value for Ordering {
    fn push_to(&self, answer: &mut Answer) -> Outcome {
        answer.word(match self {
            Ordering::Less => "less",
            Ordering::Equal => "equal",
            Ordering::Greater => "greater",
        })
    }
}

impl<V: Value> Value for Option<V> {
    fn push_to(&self, answer: &mut Answer) -> Outcome {
        match self {
            Some(value) => value.push_to(answer),
            None => answer.word("none"),
        }
    }
}

/// Two values stand one behind the other.
impl<V: Value, W: Value> Value for (V, W) {
    fn push_to(&self, answer: &mut Answer) -> Outcome {
        self.0.push_to(answer)?;
        self.1.push_to(answer)
    }
}

/// `ok` and the value, or `err` and the refusal.
impl<V: Value, R: Refusal> Value for Result<V, R> {
    fn push_to(&self, answer: &mut Answer) -> Outcome {
        match self {
            Ok(value) => {
                answer.word("ok")?;
                value.push_to(answer)
            }
            Err(refusal) => {
                answer.word("err")?;
                answer.refusal(refusal)
            }
        }
    }
}
