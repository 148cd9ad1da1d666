//! Files and their names: one file under two names, links, standard streams, and open descriptors.

use std::fs::{self, File, Metadata};
use std::io;
use std::os::fd::AsFd;
use std::os::unix::fs::{FileTypeExt, MetadataExt};
use std::path::{Path, PathBuf};

pub const STANDARD_INPUT: &str = "standard input";
pub const STANDARD_OUTPUT: &str = "standard output";
pub const STANDARD_ERROR: &str = "standard error";

/// Tells one regular file or pipe from another, whatever their names. A device has no identity, because a terminal may be
/// input and output at once.
#[derive(Debug, Clone, Copy, PartialEq, Eq)]
pub struct Identity {
    device: u64,
    inode: u64,
    is_pipe: bool,
}

impl Identity {
    pub fn of(metadata: &Metadata) -> Option<Identity> {
        let is_pipe = metadata.file_type().is_fifo();
        let identity = Identity { device: metadata.dev(), inode: metadata.ino(), is_pipe };
        (metadata.is_file() || is_pipe).then_some(identity)
    }

    pub fn is_pipe(&self) -> bool {
        self.is_pipe
    }
}

/// A standard stream as a file.
pub fn standard(stream: impl AsFd) -> io::Result<File> {
    Ok(File::from(stream.as_fd().try_clone_to_owned()?))
}

/// How many links in a row are followed.
const MOST_LINKS: usize = 40;

/// The path that symbolic links lead to, whether or not a file is there. The name of an open descriptor stays as it is.
pub fn behind_links(path: &Path) -> io::Result<PathBuf> {
    let mut path = path.to_owned();
    for _ in 0..=MOST_LINKS {
        let is_link = fs::symlink_metadata(&path).is_ok_and(|metadata| metadata.is_symlink());
        if !is_link || descriptor(&path).is_some() {
            return Ok(path);
        }
        let link = fs::read_link(&path)?;
        path = path.parent().unwrap_or(Path::new("")).join(link);
    }
    Err(io::Error::other("too many levels of symbolic links"))
}

/// The number of the open descriptor that a path behind all links names: 1 for /proc/self/fd/1, where /dev/stdout leads.
pub fn descriptor(path: &Path) -> Option<u32> {
    let folder = fs::canonicalize(path.parent()?).ok()?;
    let is_own = fs::canonicalize("/proc/self/fd").is_ok_and(|own| own == folder);
    path.file_name().filter(|_| is_own)?.to_str()?.parse().ok()
}

/// The system's error for a folder in the place of a file.
pub fn is_a_directory() -> io::Error {
    const EISDIR: i32 = 21;
    io::Error::from_raw_os_error(EISDIR)
}

/// The error for a standard stream that was closed when the program started.
pub fn is_closed() -> io::Error {
    io::Error::other("it is closed")
}

#[cfg(test)]
mod tests {
    use super::*;

    #[test]
    fn names_of_descriptors() {
        let descriptor = |name| descriptor(&behind_links(Path::new(name)).unwrap());
        if cfg!(target_os = "linux") {
            for (name, number) in [("/dev/stdin", 0), ("/dev/stdout", 1), ("/dev/fd/2", 2), ("/proc/self/fd/0", 0)] {
                assert_eq!(descriptor(name), Some(number), "{name}");
            }
        }
        for name in ["/dev/null", "/", "fd/0", "stdin", "0", "/proc/self/status"] {
            assert_eq!(descriptor(name), None, "{name}");
        }
    }

    #[test]
    fn files_have_an_identity_and_devices_have_none() {
        assert_eq!(Identity::of(&fs::metadata("/dev/null").unwrap()), None);
        assert!(Identity::of(&fs::metadata("Cargo.toml").unwrap()).is_some());
    }
}
