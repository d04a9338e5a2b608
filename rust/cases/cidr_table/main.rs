//! The longest-prefix table: calls that every map has, how many comparisons a match makes, and long lists of prefixes.

mod comparisons;
mod from_rows;
mod many_prefixes;
mod map_calls;
mod owned_values;

/// The next of a fixed sequence of numbers (Knuth's linear congruential generator for 64 bits).
fn next(state: &mut u64) -> u32 {
    *state = state.wrapping_mul(6364136223846793005).wrapping_add(1442695040888963407);
    (*state >> 33) as u32
}
