//! The loop alone, without a call: what it takes is part of each row of `contains`, `contains_cidr` and `cmp`.

use crate::bench::{Bench, Call2};
use crate::samples::fixed_values;
use cidr_support::alloc::AllocError;

/// Takes both numbers together.
struct NoCall;

impl Call2<u32, u32> for NoCall {
    fn number(&self, one: &u32, other: &u32) -> u32 {
        *one ^ *other
    }
}

/// Times the loop of a row alone, without a call.
pub fn time_all(bench: &Bench<'_>) -> Result<(), AllocError> {
    let values = fixed_values::<u32>();
    bench.pairs("no call", NoCall, &values, &values)
}
