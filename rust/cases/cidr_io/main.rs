//! Lines that are said in blocks.

use cidr_io::block::Block;
use cidr_io::sink::{Sink, Tracked};
use std::io::{ErrorKind, Result, Write};

/// A writer that nobody reads.
struct Closed;

impl Write for Closed {
    fn write(&mut self, _: &[u8]) -> Result<usize> {
        Err(ErrorKind::BrokenPipe.into())
    }

    fn flush(&mut self) -> Result<()> {
        Ok(())
    }
}

#[test]
fn lines_are_said_to_a_sink_that_takes_them() {
    let (mut block, mut out) = (Block::new(), Tracked::new(Vec::new()));
    block.say(&mut out, &[b"10.0.0.0/8".as_slice(), b"\n"]);
    block.flush(&mut out).unwrap();
    assert_eq!(out.into_inner(), b"10.0.0.0/8\n");
}

#[test]
fn nothing_is_said_to_a_sink_that_has_failed() {
    let (mut block, mut out) = (Block::new(), Tracked::new(Closed));
    assert_eq!(out.write(b"10.0.0.0/8\n"), None);
    block.say(&mut out, &[b"11.0.0.0/8".as_slice(), b"\n"]);
    assert!(out.failed() && block.is_empty());
}
