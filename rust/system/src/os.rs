//! What systems like Unix have besides.

/// Of all of these.
pub mod unix {
    /// Of files.
    pub mod fs {
        use crate::fs::{File, Metadata, OpenOptions};
        use std::io::Result;
        pub use std::os::unix::fs::PermissionsExt;

        /// Gives a file an owner and a group.
        pub fn fchown(file: &File, owner: Option<u32>, group: Option<u32>) -> Result<()> {
            std::os::unix::fs::fchown(file.as_std(), owner, group)
        }

        /// What of a file tells it from others, and whose it is.
        pub trait MetadataExt {
            /// The number of its device.
            fn dev(&self) -> u64;

            /// Its number on the device.
            fn ino(&self) -> u64;

            /// Its owner.
            fn uid(&self) -> u32;

            /// Its group.
            fn gid(&self) -> u32;

            /// Its kind and rights.
            fn mode(&self) -> u32;
        }

        impl MetadataExt for Metadata {
            fn dev(&self) -> u64 {
                let [major, minor] = self.0.dev;
                u64::from(major) << 32 | u64::from(minor)
            }

            fn ino(&self) -> u64 {
                self.0.ino
            }

            fn uid(&self) -> u32 {
                self.0.uid
            }

            fn gid(&self) -> u32 {
                self.0.gid
            }

            fn mode(&self) -> u32 {
                u32::from(self.0.mode)
            }
        }

        /// The rights of a new file.
        pub trait OpenOptionsExt {
            /// Sets them, of which the system takes away those of the `umask`.
            fn mode(&mut self, mode: u32) -> &mut Self;
        }

        impl OpenOptionsExt for OpenOptions {
            fn mode(&mut self, mode: u32) -> &mut OpenOptions {
                self.mode = mode;
                self
            }
        }
    }
}
