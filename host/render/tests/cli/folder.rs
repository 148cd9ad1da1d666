//! A folder for one test, and the programs run in it.

use std::fs;
use std::os::unix::fs::{MetadataExt, PermissionsExt};
use std::os::unix::process::ExitStatusExt;
use std::path::{Path, PathBuf};
use std::process::{Command, Output, Stdio};

pub const RENDER: &str = env!("CARGO_BIN_EXE_render");
pub const BANK: &str = env!("CARGO_BIN_EXE_bank");
pub const XA: &str = env!("CARGO_BIN_EXE_xa");
pub const ENCHECK: &str = env!("CARGO_BIN_EXE_encheck");

/// A tenth of a second of silence.
pub const SILENCE: &str = "t 4410\n";
/// A second tick 4410 of which rests on memory that nobody loaded.
pub const DOUBTFUL: &str = "t 4410\nw 1AA C000\nw 6 200\nw 188 1\nt 39690\n";
/// One block that is played again and again.
pub const BLOCK: [u8; 16] =
    [0x02, 0x07, 0x12, 0x34, 0x56, 0x70, 0x9A, 0xBC, 0xDE, 0xF0, 0x31, 0x75, 0x24, 0x68, 0x13, 0x57];

pub struct Folder(PathBuf);

/// What a run gave.
#[derive(Debug, PartialEq, Eq)]
pub struct Ran {
    pub status: Option<i32>,
    pub signal: Option<i32>,
    pub out: Vec<u8>,
    /// On standard error.
    pub said: String,
}

impl Folder {
    pub fn new(name: &str) -> Folder {
        let path = Path::new(env!("CARGO_TARGET_TMPDIR")).join(format!("{name}-{}", std::process::id()));
        fs::create_dir_all(&path).unwrap();
        Folder(path)
    }

    pub fn path(&self, name: &str) -> PathBuf {
        self.0.join(name)
    }

    pub fn write(&self, name: &str, content: impl AsRef<[u8]>) {
        fs::write(self.path(name), content).unwrap();
    }

    pub fn read(&self, name: &str) -> Vec<u8> {
        fs::read(self.path(name)).unwrap()
    }

    pub fn make_folder(&self, name: &str) {
        fs::create_dir(self.path(name)).unwrap();
    }

    pub fn link(&self, to: &str, name: &str) {
        std::os::unix::fs::symlink(to, self.path(name)).unwrap();
    }

    pub fn hard_link(&self, to: &str, name: &str) {
        fs::hard_link(self.path(to), self.path(name)).unwrap();
    }

    pub fn mode(&self, name: &str) -> u32 {
        fs::metadata(self.path(name)).unwrap().mode() & 0o7777
    }

    pub fn set_mode(&self, name: &str, mode: u32) {
        fs::set_permissions(self.path(name), fs::Permissions::from_mode(mode)).unwrap();
    }

    /// The names of what is in the folder, hidden or not, in order.
    pub fn names(&self) -> Vec<String> {
        let entries = fs::read_dir(&self.0).unwrap();
        let mut names: Vec<_> = entries.map(|entry| entry.unwrap().file_name().into_string().unwrap()).collect();
        names.sort();
        names
    }

    /// Root may do all, so a test of what is forbidden tells nothing.
    pub fn belongs_to_root(&self) -> bool {
        fs::metadata(&self.0).unwrap().uid() == 0
    }

    /// A run of one of the programs.
    pub fn command(&self, program: &str, arguments: &[&str]) -> Command {
        let mut command = Command::new(program);
        command.args(arguments).current_dir(&self.0).stdin(Stdio::null());
        command
    }

    pub fn render(&self, arguments: &[&str]) -> Ran {
        ran(self.command(RENDER, arguments).output().unwrap())
    }

    pub fn bank(&self, arguments: &[&str]) -> Ran {
        ran(self.command(BANK, arguments).output().unwrap())
    }

    pub fn xa(&self, arguments: &[&str]) -> Ran {
        ran(self.command(XA, arguments).output().unwrap())
    }

    pub fn encheck(&self, arguments: &[&str]) -> Ran {
        ran(self.command(ENCHECK, arguments).output().unwrap())
    }

    /// Runs a command of the shell, in which `$RENDER`, `$BANK`, `$XA` and `$ENCHECK` are the programs.
    pub fn shell(&self, line: &str) -> Ran {
        let mut command = self.command("sh", &["-c", line]);
        command.env("RENDER", RENDER).env("BANK", BANK).env("XA", XA).env("ENCHECK", ENCHECK);
        ran(command.output().unwrap())
    }

    /// A WAV file that an earlier run made.
    pub fn render_earlier(&self, name: &str) -> Vec<u8> {
        self.write("earlier.txt", "t 7\n");
        self.render(&["earlier.txt", name]).is(0, &format!("{name}: 0.000 s\n"));
        fs::remove_file(self.path("earlier.txt")).unwrap();
        self.read(name)
    }
}

impl Drop for Folder {
    fn drop(&mut self) {
        let _ = fs::remove_dir_all(&self.0);
    }
}

pub fn ran(output: Output) -> Ran {
    let Output { status, stdout, stderr } = output;
    Ran { status: status.code(), signal: status.signal(), out: stdout, said: String::from_utf8(stderr).unwrap() }
}

impl Ran {
    #[track_caller]
    pub fn is(&self, status: i32, said: &str) {
        assert_eq!((self.status, self.said.as_str()), (Some(status), said));
    }

    /// It printed this, and said nothing on standard error.
    #[track_caller]
    pub fn printed(&self, status: i32, text: &str) {
        self.is(status, "");
        assert_eq!(std::str::from_utf8(&self.out), Ok(text));
    }
}

/// The samples of a WAV file with a header for this length.
#[track_caller]
pub fn samples(wav: &[u8]) -> Vec<i16> {
    let sound = &wav[44..];
    assert_eq!(wav[4..8], (36 + sound.len() as u32).to_le_bytes());
    assert_eq!(wav[40..44], (sound.len() as u32).to_le_bytes());
    values(sound)
}

/// The samples of a WAV file that was streamed.
#[track_caller]
pub fn streamed_samples(wav: &[u8]) -> Vec<i16> {
    assert_eq!(wav[4..8], [0xFF; 4]);
    assert_eq!(wav[40..44], [0xFF; 4]);
    values(&wav[44..])
}

#[track_caller]
fn values(sound: &[u8]) -> Vec<i16> {
    assert_eq!(sound.len() % 4, 0);
    sound.chunks(2).map(|sample| i16::from_le_bytes([sample[0], sample[1]])).collect()
}

/// A bank of entries, each its kind, offset and count, good or not, cut or filled up to its length.
pub fn bank_of(entries: &[(u16, u32, u32)], length: usize) -> Vec<u8> {
    let mut bank = (entries.len() as u16).to_le_bytes().to_vec();
    for &(kind, offset, count) in entries {
        bank.extend(kind.to_le_bytes());
        bank.extend(offset.to_le_bytes());
        bank.extend(count.to_le_bytes());
    }
    bank.resize(length, 0);
    bank
}

/// A script that plays what is loaded at a unit of sound RAM, for a tenth of a second.
pub fn playing(unit: u16) -> String {
    format!("w 180 3FFF\nw 182 3FFF\nw 1AA C000\nw 0 3FFF\nw 2 3FFF\nw 4 1000\nw 6 {unit:X}\nw 8 F\nw 188 1\nt 4410\n")
}
