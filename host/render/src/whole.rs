//! Reads all bytes at once, but not those of a file without end.

use std::fs::File;
use std::io::{self, Read};

/// The most bytes that are read, so that a file without end does not fill the memory. A bank of 1,024 sounds that each
/// fill 512 KiB of sound RAM takes half of it, and so do 100 minutes of 16 bits, mono, 44,100 Hz.
const MOST_BYTES: u64 = 1 << 30;

/// All bytes of a file. Messages name what it is.
pub fn read_file(file: File, what: &str) -> io::Result<Vec<u8>> {
    if file.metadata()?.len() > MOST_BYTES {
        return Err(too_long(what));
    }
    read(file, what)
}

/// All bytes that are left.
pub fn read(input: impl Read, what: &str) -> io::Result<Vec<u8>> {
    read_up_to(MOST_BYTES, input)?.ok_or_else(|| too_long(what))
}

/// All bytes that are left, or `None` if there are more than so many.
fn read_up_to(most: u64, input: impl Read) -> io::Result<Option<Vec<u8>>> {
    let mut bytes = Vec::new();
    let length = input.take(most + 1).read_to_end(&mut bytes)? as u64;
    Ok((length <= most).then_some(bytes))
}

fn too_long(what: &str) -> io::Error {
    io::Error::other(format!("it is longer than 1 GiB, and no {what} needs to be"))
}

#[cfg(test)]
mod tests {
    use super::*;

    #[test]
    fn a_file_without_end_is_not_read_to_its_end() {
        assert_eq!(read_up_to(100, File::open("/dev/zero").unwrap()).unwrap(), None);
        assert_eq!(read_up_to(100, File::open("/dev/null").unwrap()).unwrap(), Some(vec![]));
        assert_eq!(too_long("bank").to_string(), "it is longer than 1 GiB, and no bank needs to be");
    }

    #[test]
    fn there_may_be_the_most_bytes() {
        assert_eq!(read_up_to(3, &b"abc"[..]).unwrap(), Some(b"abc".to_vec()));
        assert_eq!(read_up_to(2, &b"abc"[..]).unwrap(), None);
    }
}
