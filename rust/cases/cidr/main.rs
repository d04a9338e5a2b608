//! Values of the libraries to the standard library and as they are printed, pairs with every length, and what parsers make
//! of closures and of strings of a hundred thousand characters.

mod calls;
mod copies;
mod debug_output;
mod errors;
mod hashes;
mod lengths;
mod long_loose_texts;
mod long_texts;
mod order;
mod refusals;
mod serde_forms;
mod std_addresses;

use std::fmt::Debug;
use std::str::FromStr;

/// The value of a string.
fn read<V: FromStr<Err: Debug>>(text: &str) -> V {
    text.parse().unwrap()
}

/// The string with a hundred thousand of these between its front and its back.
fn long(front: &str, middle: char, back: &str) -> String {
    let middle: String = std::iter::repeat_n(middle, 100_000).collect();
    [front, &middle, back].concat()
}
