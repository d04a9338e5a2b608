//! The operators `+` and `-`, where the step stays in the network, and what each type of hosts has alone.

use crate::answer::Answer;
use crate::hosts::{steps, Host};
use crate::line_error::{LineError, Outcome};
use crate::tokens::Tokens;
use cidr::{IpInet, Ipv4Inet, Ipv6Inet};

impl Host for Ipv4Inet {
    fn add(self, step: u128) -> Option<Ipv4Inet> {
        if Ipv4Inet::overflowing_add(self, step).1 {
            None
        } else {
            Some(self + step)
        }
    }

    fn sub(self, step: u128) -> Option<Ipv4Inet> {
        if Ipv4Inet::overflowing_sub(self, step).1 {
            None
        } else {
            Some(self - step)
        }
    }

    fn answer_own(name: &str, tokens: &mut Tokens<'_>, answer: &mut Answer) -> Outcome {
        match name {
            "address_ref" => answer.value(tokens.value::<Ipv4Inet>()?.address_ref()),
            "add_u32" | "sub_u32" | "overflowing_add_u32" | "overflowing_sub_u32" => {
                steps::answer_narrow(name, tokens, answer)
            }
            _ => Err(LineError::Malformed),
        }
    }
}

impl Host for Ipv6Inet {
    fn add(self, step: u128) -> Option<Ipv6Inet> {
        if Ipv6Inet::overflowing_add(self, step).1 {
            None
        } else {
            Some(self + step)
        }
    }

    fn sub(self, step: u128) -> Option<Ipv6Inet> {
        if Ipv6Inet::overflowing_sub(self, step).1 {
            None
        } else {
            Some(self - step)
        }
    }

    fn answer_own(name: &str, tokens: &mut Tokens<'_>, answer: &mut Answer) -> Outcome {
        match name {
            "address_ref" => answer.value(tokens.value::<Ipv6Inet>()?.address_ref()),
            _ => Err(LineError::Malformed),
        }
    }
}

impl Host for IpInet {
    fn add(self, step: u128) -> Option<IpInet> {
        let host = self;
        if IpInet::overflowing_add(self, step).1 {
            None
        } else {
            Some(host + step)
        }
    }

    fn sub(self, step: u128) -> Option<IpInet> {
        let host = self;
        if IpInet::overflowing_sub(self, step).1 {
            None
        } else {
            Some(host - step)
        }
    }

    fn answer_own(name: &str, tokens: &mut Tokens<'_>, answer: &mut Answer) -> Outcome {
        match name {
            "is" => {
                let host = tokens.value::<IpInet>()?;
                answer.value(&(host.is_ipv4(), host.is_ipv6()))
            }
            _ => Err(LineError::Malformed),
        }
    }
}
