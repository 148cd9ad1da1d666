//! A file beside the target that gets the sound, and takes the target's place when it is whole.

use std::fs::{self, File, Metadata, Permissions};
use std::io;
use std::os::unix::fs::{fchown, MetadataExt, OpenOptionsExt, PermissionsExt};
use std::path::{Path, PathBuf};
use std::process;

use crate::files::Identity;
use crate::system::{self, Ending};

/// The temporary file. Dropping it removes the file, unless it has taken the target's place.
pub struct Temporary {
    path: PathBuf,
    pub identity: Option<Identity>,
    placed: bool,
}

/// How many bytes of the target's name the temporary name holds: a name has at most 255 bytes.
const MOST_NAME_BYTES: usize = 200;
/// How many names are tried: a killed process with the same number may have left its file.
const MOST_NAMES: u32 = 100;

const FORBIDDEN: &str = "no new file may be created in its folder";

impl Temporary {
    /// Creates the file with the owner and the mode of the file that it will replace.
    pub fn create(program: &str, target: &Path, old: Option<&Metadata>) -> io::Result<(Temporary, File)> {
        let (file, temporary) = system::uninterrupted(|| create_named(program, target, old.is_some()))?;
        if let Some(old) = old {
            let _ = fchown(&file, Some(old.uid()), Some(old.gid())); // only root may give a file away
            file.set_permissions(Permissions::from_mode(old.mode() & 0o777))?;
        }
        Ok((temporary, file))
    }

    /// Gives the file the target's name, in one step.
    pub fn take_place(mut self, target: &Path) -> io::Result<()> {
        system::uninterrupted(|| {
            fs::rename(&self.path, target)?;
            self.placed = true;
            system::set_ending(Ending::Whole);
            Ok(())
        })
    }
}

impl Drop for Temporary {
    fn drop(&mut self) {
        if !self.placed {
            let _ = fs::remove_file(&self.path);
        }
    }
}

/// Creates the file under a free name. From then on a signal removes it.
fn create_named(program: &str, target: &Path, private: bool) -> io::Result<(File, Temporary)> {
    for attempt in 0..MOST_NAMES {
        let path = target.with_file_name(name(program, target, attempt));
        match File::options().write(true).create_new(true).mode(if private { 0o600 } else { 0o666 }).open(&path) {
            Ok(file) => {
                system::set_ending(Ending::AsBefore(Some(&path)));
                let identity = file.metadata().ok().as_ref().and_then(Identity::of);
                return Ok((file, Temporary { path, identity, placed: false }));
            }
            Err(error) if error.kind() == io::ErrorKind::AlreadyExists => {}
            Err(error) if error.kind() == io::ErrorKind::PermissionDenied => return Err(io::Error::other(FORBIDDEN)),
            Err(error) => return Err(error),
        }
    }
    Err(io::Error::other("earlier runs left too many temporary files beside it"))
}

fn name(program: &str, target: &Path, attempt: u32) -> String {
    let target = target.file_name().unwrap_or_default().to_string_lossy();
    let mut end = target.len().min(MOST_NAME_BYTES);
    while !target.is_char_boundary(end) {
        end -= 1;
    }
    let again = if attempt == 0 { String::new() } else { format!("-{attempt}") };
    format!(".{}.{program}-{}{again}.tmp", &target[..end], process::id())
}

#[cfg(test)]
mod tests {
    use super::*;

    #[test]
    fn the_name_tells_the_target() {
        let id = process::id();
        assert_eq!(name("render", Path::new("a/song.wav"), 0), format!(".song.wav.render-{id}.tmp"));
        assert_eq!(name("xa", Path::new("song.wav"), 2), format!(".song.wav.xa-{id}-2.tmp"));
    }

    #[test]
    fn the_name_is_short_enough() {
        let long = "ü".repeat(127);
        assert!(name("render", Path::new(&long), 99).len() <= 255);
    }
}
