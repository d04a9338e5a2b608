//! Opening a file.

use crate::database::Database;
use crate::errors::OpenError;
use crate::metadata::{last_marker, tree_layout};
use crate::records::node_bytes;
use crate::trees::Tree;

/// Finds the parts of a file in its bytes. What is read of the metadata are three numbers, each of the first pair that has its name:
/// `node_count`, `record_size` and `ip_version`.
///
/// It takes no memory, and at most some 128 KiB of steps, whatever the bytes are.
///
/// ```
/// # use cidr::Ipv4Cidr;
/// # use cidr_mmdb::*;
/// # use cidr_support::alloc::Global;
/// let mut bytes = b"\x00\x00\x11\x00\x00\x01".to_vec();
/// bytes.extend([0; 16]);
/// bytes.extend(b"\xe1\x47country\x42NL");
/// bytes.extend(b"\xab\xcd\xefMaxMind.com\xe3\x4anode_count\xc1\x01\x4brecord_size\xa1\x18\x4aip_version\xa1\x04");
/// let database = open(&bytes)?;
/// assert_eq!(database.tree.node_count, 1);
/// # Ok::<(), Box<dyn std::error::Error>>(())
/// ```
///
/// # Errors
///
/// `OpenError`, which tells what is wrong.
pub fn open(bytes: &[u8]) -> Result<Database<'_>, OpenError> {
    let Some(at) = last_marker(bytes) else {
        return Err(OpenError::NoMarker);
    };
    let metadata = &bytes[at + 14..];
    let layout = match tree_layout(metadata) {
        Ok(layout) => layout,
        Err(e) => {
            return Err(OpenError::Metadata(e));
        }
    };
    let size = layout.node_count as usize * node_bytes(layout.record_size);
    if at < size + 16 {
        return Err(OpenError::TreeTooLong);
    }
    let tree = Tree {
        bytes: &bytes[..size],
        node_count: layout.node_count,
        record_size: layout.record_size,
    };
    let start = tree.walk(0, 0, layout.width.saturating_sub(32));
    Ok(Database {
        tree,
        width: layout.width,
        ipv4_start: start.record,
        data: &bytes[size + 16..at],
        metadata,
    })
}
