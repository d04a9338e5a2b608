//! The line of a network and its value.

use cidr_support::arrayvec::ArrayString;
use cidr_io::block::Block;
use cidr_io::sink::{OutputFailed, Sink};

/// Appends the line of a network and its value to a block, with a space in front of the value if it is not empty; in front of
/// it stand two other strings.
#[inline]
pub fn push_row<'x, S: Sink>(
    block: &mut Block,
    out: &mut S,
    front: &'x [u8],
    joint: &'x [u8],
    network: ArrayString<43>,
    value: &'x [u8],
) -> Result<(), OutputFailed> {
    let network = network.as_str().as_bytes();
    if value.is_empty() {
        return block.push_line(out, &[front, joint, network, b"\n"]);
    }
    block.push_line(out, &[front, joint, network, b" ", value, b"\n"])
}
