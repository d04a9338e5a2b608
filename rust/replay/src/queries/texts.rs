//! How networks and hosts are printed; those of one family also by `Debug`.

use crate::answer::Answer;
use crate::line_error::Outcome;
use crate::queries::{plain_and_forced, HasTexts};
use cidr::{AnyIpCidr, IpCidr, IpInet, Ipv4Cidr, Ipv4Inet, Ipv6Cidr, Ipv6Inet};

impl HasTexts for Ipv4Cidr {
    fn texts(&self, answer: &mut Answer) -> Outcome {
        let forced = self.with_length();
        plain_and_forced(answer, self, &self.to_text(), &forced, &forced.to_text())?;
        answer.display(&format_args!("{self:?}"))
    }
}

impl HasTexts for Ipv6Cidr {
    fn texts(&self, answer: &mut Answer) -> Outcome {
        let forced = self.with_length();
        plain_and_forced(answer, self, &self.to_text(), &forced, &forced.to_text())?;
        answer.display(&format_args!("{self:?}"))
    }
}

impl HasTexts for Ipv4Inet {
    fn texts(&self, answer: &mut Answer) -> Outcome {
        let forced = self.with_length();
        plain_and_forced(answer, self, &self.to_text(), &forced, &forced.to_text())?;
        answer.display(&format_args!("{self:?}"))
    }
}

impl HasTexts for Ipv6Inet {
    fn texts(&self, answer: &mut Answer) -> Outcome {
        let forced = self.with_length();
        plain_and_forced(answer, self, &self.to_text(), &forced, &forced.to_text())?;
        answer.display(&format_args!("{self:?}"))
    }
}

impl HasTexts for IpCidr {
    fn texts(&self, answer: &mut Answer) -> Outcome {
        let forced = self.with_length();
        plain_and_forced(answer, self, &self.to_text(), &forced, &forced.to_text())
    }
}

impl HasTexts for AnyIpCidr {
    fn texts(&self, answer: &mut Answer) -> Outcome {
        let forced = self.with_length();
        plain_and_forced(answer, self, &self.to_text(), &forced, &forced.to_text())
    }
}

impl HasTexts for IpInet {
    fn texts(&self, answer: &mut Answer) -> Outcome {
        let forced = self.with_length();
        plain_and_forced(answer, self, &self.to_text(), &forced, &forced.to_text())
    }
}
