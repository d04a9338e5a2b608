//! Printing addresses and networks.

use crate::bench::{Bench, Call};
use crate::numbers::Number;
use crate::samples::{samples, Sample};
use cidr::{IpCidr, Ipv4Addr, Ipv4Cidr, Ipv6Addr, Ipv6Cidr};
use cidr_support::alloc::{AllocError, Global};
use cidr_support::arrayvec::ArrayString;

/// Prints a value.
struct Print;

impl Call<Ipv4Addr> for Print {
    fn number(&self, value: &Ipv4Addr) -> u32 {
        value.to_text().number()
    }
}

impl Call<Ipv6Addr> for Print {
    fn number(&self, value: &Ipv6Addr) -> u32 {
        value.to_text().number()
    }
}

impl Call<Ipv4Cidr> for Print {
    fn number(&self, value: &Ipv4Cidr) -> u32 {
        value.to_text().number()
    }
}

impl Call<Ipv6Cidr> for Print {
    fn number(&self, value: &Ipv6Cidr) -> u32 {
        value.to_text().number()
    }
}

impl Call<IpCidr> for Print {
    fn number(&self, value: &IpCidr) -> u32 {
        value.to_text().number()
    }
}

/// Prints a line with an address, in place.
struct PrintLine;

impl Call<Ipv4Addr> for PrintLine {
    fn number(&self, value: &Ipv4Addr) -> u32 {
        let mut line = ArrayString::<16>::new();
        let _ = value.write_to(&mut line);
        let _ = line.try_push('\n');
        line.number()
    }
}

/// Times printing of lines.
fn time_lines(bench: &Bench<'_>) -> Result<(), AllocError> {
    let values = samples::<Ipv4Addr>(Global)?;
    bench.each("print IPv4 line", PrintLine, values.as_slice())
}

/// Times printing of values of one type.
fn time<T: Sample>(bench: &Bench<'_>, name: &str) -> Result<(), AllocError>
where
    Print: Call<T>,
{
    let values = samples::<T>(Global)?;
    bench.each(name, Print, values.as_slice())
}

/// Times printing.
pub fn time_all(bench: &Bench<'_>) -> Result<(), AllocError> {
    time::<Ipv4Addr>(bench, "print IPv4 address")?;
    time::<Ipv6Addr>(bench, "print IPv6 address")?;
    time::<Ipv4Cidr>(bench, "print IPv4 network")?;
    time::<Ipv6Cidr>(bench, "print IPv6 network")?;
    time::<IpCidr>(bench, "print IpCidr")?;
    time_lines(bench)
}
