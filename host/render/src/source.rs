//! Where a script, the CD, a sound bank, XA sectors or the two files of a check are read from.

use std::ffi::OsStr;
use std::fs::{self, File};
use std::io;
use std::path::{Path, PathBuf};

use crate::failure::Failure;
use crate::files::{self, Identity};
use crate::{system, words};

pub struct Source {
    /// As messages name it.
    pub name: String,
    pub identity: Option<Identity>,
    /// The folder of the files that the script names.
    pub folder: PathBuf,
    place: Place,
}

enum Place {
    StandardInput(File),
    Named(PathBuf),
}

impl Source {
    /// What the command line names: `-` is standard input.
    pub fn find(name: &OsStr) -> Result<Source, Failure> {
        if name == "-" {
            return Source::standard_input().map_err(|error| Failure::reading(files::STANDARD_INPUT, &error));
        }
        Source::file(Path::new(name))
    }

    /// Looks at a file without opening it: a FIFO waits for its writer only when it is opened.
    pub fn file(path: &Path) -> Result<Source, Failure> {
        Source::named(path).map_err(|error| Failure::reading(words::name(path), &error))
    }

    fn standard_input() -> io::Result<Source> {
        if system::was_closed(0) {
            return Err(files::is_closed());
        }
        let file = files::standard(io::stdin())?;
        let metadata = file.metadata()?;
        if metadata.is_dir() {
            return Err(files::is_a_directory());
        }
        Ok(Source {
            name: files::STANDARD_INPUT.to_owned(),
            identity: Identity::of(&metadata),
            folder: PathBuf::new(),
            place: Place::StandardInput(file),
        })
    }

    fn named(path: &Path) -> io::Result<Source> {
        let metadata = fs::metadata(path)?;
        let descriptor = files::descriptor(&files::behind_links(path)?);
        if descriptor == Some(0) {
            return Source::standard_input();
        }
        if metadata.is_dir() {
            return Err(files::is_a_directory());
        }
        let stands_in_folder = metadata.is_file() && descriptor.is_none();
        let folder = path.parent().filter(|_| stands_in_folder).unwrap_or(Path::new(""));
        Ok(Source {
            name: words::name(path),
            identity: Identity::of(&metadata),
            folder: folder.to_owned(),
            place: Place::Named(path.to_owned()),
        })
    }

    /// Whether bytes that one reads are lost to the other: both are standard input, or one pipe. A regular file that is
    /// named twice is opened twice.
    pub fn shares_bytes(&self, other: &Source) -> bool {
        match (&self.place, &other.place) {
            (Place::StandardInput(_), Place::StandardInput(_)) => true,
            _ => self.identity.is_some_and(|identity| identity.is_pipe()) && self.identity == other.identity,
        }
    }

    /// Whether it is a regular file that is named, not standard input: it has a length, and can be read twice.
    pub fn is_named_file(&self) -> bool {
        matches!(self.place, Place::Named(_)) && self.identity.is_some_and(|identity| !identity.is_pipe())
    }

    pub fn open(self) -> Result<File, Failure> {
        match self.place {
            Place::StandardInput(file) => Ok(file),
            Place::Named(path) => File::open(path).map_err(|error| Failure::reading(self.name, &error)),
        }
    }
}
