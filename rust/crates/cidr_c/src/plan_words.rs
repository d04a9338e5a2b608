//! Where a row of an address plan is cut: what it says of networks, and the name behind that.

/// Whether a byte parts words.
#[inline]
fn is_gap(byte: u8) -> bool {
    byte.is_ascii_whitespace() || byte == b','
}

/// How many bytes at the front part words.
#[inline]
pub fn gap_len(text: &[u8]) -> usize {
    text.iter()
        .position(|byte| !is_gap(*byte))
        .unwrap_or(text.len())
}

/// How many bytes stand before the first that parts words.
#[inline]
fn len_to_gap(text: &[u8]) -> usize {
    text.iter()
        .position(|byte| is_gap(*byte))
        .unwrap_or(text.len())
}

/// How many bytes stand before the first hyphen.
#[inline]
fn len_to_hyphen(text: &[u8]) -> usize {
    text.iter()
        .position(|byte| *byte == b'-')
        .unwrap_or(text.len())
}

/// Where the first word ends.
#[inline]
pub fn word_end(text: &[u8]) -> usize {
    let gap = gap_len(text);
    gap + len_to_gap(&text[gap..])
}

/// Where ends what a row says of networks: behind its first word; or, where the first hyphen stands in that or next behind
/// it, behind the word that follows the hyphen.
#[inline]
pub fn said_end(row: &[u8]) -> usize {
    let word = word_end(row);
    let hyphen = len_to_hyphen(row);
    if hyphen < row.len() && hyphen <= word + gap_len(&row[word..]) {
        let behind = hyphen + 1;
        return behind + word_end(&row[behind..]);
    }
    word
}

/// Where the name of a row begins.
#[inline]
pub fn name_at(row: &[u8]) -> usize {
    let said = said_end(row);
    said + gap_len(&row[said..])
}
