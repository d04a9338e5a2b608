//! The command `walk`: the ends that letters name, and the lines that answer them.

use crate::errors::ToolError;
use cidr_support::arrayvec::ArrayString;
use cidr::{End, IpAddr, IpCidr, drive};
use cidr_io::sink::Sink;
use cidr_io::writing::write_text;

/// The most ends that an argument names.
const MOST_ENDS: usize = 256;

/// The lines of as many answers as there can be, of which the longest has 39 bytes and a line feed.
type WalkLines = ArrayString<10240>;

/// Ends of a walk, in order.
pub struct Ends {
    places: [End; MOST_ENDS],
    count: usize,
}

impl Ends {
    /// The ends that the string names, letter by letter: `f` is the front and `b` the back.
    pub fn named_by(text: &str) -> Option<Ends> {
        let letters = text.as_bytes();
        if letters.len() > MOST_ENDS {
            return None;
        }
        let mut places = [End::Front; MOST_ENDS];
        for (i, letter) in letters.iter().enumerate() {
            places[i] = end_of(*letter)?;
        }
        Some(Ends {
            places,
            count: letters.len(),
        })
    }

    /// The ends as a slice.
    #[inline]
    pub fn as_slice(&self) -> &[End] {
        &self.places[..self.count]
    }
}

/// The end that a letter names.
#[inline]
fn end_of(code: u8) -> Option<End> {
    match code {
        b'f' => Some(End::Front),
        b'b' => Some(End::Back),
        _ => None,
    }
}

/// The line that answers one call.
#[inline]
fn push_line(lines: &mut WalkLines, answer: &Option<IpAddr>) {
    match answer {
        Some(address) => lines.push_str(address.to_text().as_str()),
        None => lines.push_str("none"),
    }
    lines.push_str("\n");
}

/// The lines that answer the calls.
#[inline]
fn lines_of(answers: &[Option<IpAddr>]) -> WalkLines {
    let mut lines = WalkLines::new();
    for answer in answers {
        push_line(&mut lines, answer);
    }
    lines
}

/// Writes the lines that answer calls at these ends of the walk over the network's addresses.
#[inline]
pub fn write_walk<S: Sink>(network: &IpCidr, ends: &[End], out: &mut S) -> Result<(), ToolError> {
    let mut places = [None; MOST_ENDS];
    let answers = &mut places[..ends.len()];
    let mut walk = network.iter().addresses();
    drive(&mut walk, ends, answers);
    let lines = lines_of(answers);
    Ok(write_text(out, lines.as_str())?)
}
