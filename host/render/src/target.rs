//! Finds out what the name of the output stands for, before anything is written.

use std::ffi::OsStr;
use std::fs::{self, File, Metadata};
use std::io::{self, Read};
use std::os::unix::ffi::OsStrExt;
use std::path::{Path, PathBuf};

use crate::failure::Failure;
use crate::files::{self, Identity};
use crate::{system, wav, words};

pub struct Target {
    /// As messages name it.
    pub name: String,
    pub identity: Option<Identity>,
    pub kind: Kind,
    /// The program that writes it, as messages and the temporary file name it.
    pub program: &'static str,
}

pub enum Kind {
    /// A regular file to create or to replace: its path behind all links, and the metadata of what is there now.
    File {
        path: PathBuf,
        old: Option<Metadata>,
    },
    /// A device or a FIFO.
    Stream(PathBuf),
    StandardOutput(File),
}

/// As messages name the output that the command line names.
pub fn shown(name: &OsStr) -> String {
    match name.as_bytes() {
        b"-" => files::STANDARD_OUTPUT.to_owned(),
        _ => words::name(name.as_ref()),
    }
}

/// The last line of a run that failed after a stream was begun.
pub const INCOMPLETE: &str = "what was written of the stream is incomplete";

/// The last line of a run that failed and left the output alone.
pub fn untouched(name: &OsStr) -> String {
    let shown = shown(name);
    match fs::metadata(name) {
        _ if name == "-" => format!("nothing was written to {shown}"),
        Ok(_) => format!("{shown} is as it was before"),
        Err(_) => format!("{shown} was not written"),
    }
}

impl Target {
    pub fn find(name: &OsStr, program: &'static str) -> Result<Target, Failure> {
        let shown = shown(name);
        let kind = match name.as_bytes() {
            b"-" => standard_output(),
            _ => named(Path::new(name)),
        };
        let kind = kind.map_err(|error| Failure::writing(&shown, &error))?;
        let identity = kind.metadata().as_ref().and_then(Identity::of);
        Ok(Target { name: shown, identity, kind, program })
    }

    /// Refuses a file that may not be written, and one that has content but is not a WAV file: the two names are easily
    /// exchanged.
    pub fn check_replaceable(&self) -> Result<(), Failure> {
        let Kind::File { path, old: Some(_) } = &self.kind else { return Ok(()) };
        let Target { name, program, .. } = self;
        let beginning = beginning_of_writable(path).map_err(|error| Failure::writing(name, &error))?;
        if beginning.is_empty() || wav::is_wav(&beginning) {
            return Ok(());
        }
        Err(Failure::new(format!(
            "{name} is not a WAV file, and {program} replaces only WAV files; nothing was written"
        )))
    }
}

impl Kind {
    fn metadata(&self) -> Option<Metadata> {
        match self {
            Kind::File { old, .. } => old.clone(),
            Kind::Stream(path) => fs::metadata(path).ok(),
            Kind::StandardOutput(file) => file.metadata().ok(),
        }
    }
}

fn standard_output() -> io::Result<Kind> {
    if system::was_closed(1) {
        return Err(files::is_closed());
    }
    files::standard(io::stdout()).map(Kind::StandardOutput)
}

fn named(path: &Path) -> io::Result<Kind> {
    let path = files::behind_links(path)?;
    match (fs::metadata(&path), files::descriptor(&path)) {
        (Ok(metadata), _) if metadata.is_dir() => Err(files::is_a_directory()),
        (Ok(_), Some(1)) => standard_output(),
        (Ok(metadata), None) if metadata.is_file() => Ok(Kind::File { path, old: Some(metadata) }),
        (Ok(metadata), Some(_)) if metadata.is_file() => {
            Err(io::Error::other("this is an open file; give the file's own name"))
        }
        (Ok(_), _) => Ok(Kind::Stream(path)),
        (Err(error), None) if error.kind() == io::ErrorKind::NotFound => new_file(path),
        (Err(error), _) => Err(error),
    }
}

fn new_file(path: PathBuf) -> io::Result<Kind> {
    if path.as_os_str().as_bytes().ends_with(b"/") || path.file_name().is_none() {
        return Err(files::is_a_directory());
    }
    Ok(Kind::File { path, old: None })
}

/// Opens the file for writing as well, which fails if that is not allowed and otherwise changes nothing.
fn beginning_of_writable(path: &Path) -> io::Result<Vec<u8>> {
    let file = File::options().read(true).write(true).open(path)?;
    let mut beginning = Vec::new();
    file.take(12).read_to_end(&mut beginning)?;
    Ok(beginning)
}
