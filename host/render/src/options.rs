//! The command line of `render`.

use std::ffi::{OsStr, OsString};
use std::os::unix::ffi::OsStrExt;
use std::path::PathBuf;

use tenonwhisk::Size;

use crate::arguments::{shown, split, two_names};

pub const HELP: &str = "\
usage: render [OPTIONS] SCRIPT OUT

Renders a script to a WAV file: 16 bits, stereo, 44,100 Hz.

SCRIPT is a file, or - for standard input. OUT is a file, or - for standard output; it may also be a
device or a FIFO.

Options, before or after the names:
  --ram 512       KiB of sound RAM: 512 as in the console (the default), or 64
  --cd FILE.wav   play this file as the CD input from tick 0 on, and silence after its end
                  (16 bits, stereo, 44,100 Hz, PCM)
  --title FILE    the title's sound bank, for lines b
  --house FILE    the house's sound bank, for lines b whose number the title's bank has no entry for
  -h, --help      print this text
  --version       print the version
  --              what follows is a name, even if it begins with -

Lines of a script:
  w OFFSET VALUE  write a register, by its offset from 1F801C00h (hex, 1 to 4 digits)
  s V ..          move halfwords to sound RAM at the transfer address (hex, 1 to 4 digits)
  t N             sound for N ticks of 1/44100 s (decimal, up to 65535)
  l ADDRESS FILE  load a file's bytes to sound RAM at an address (hex, 1 to 5 digits, a multiple of 8)
  b NUMBER        move a sound of the banks to sound RAM at the transfer address (decimal, up to 4294967295)
  # ..            a comment; blank lines are skipped too

Spaces, tabs and CR separate fields. FILE is the rest of the line, so its name may hold spaces. A relative
FILE is looked for beside the script, or in the current folder if the script is standard input or a pipe. A
load takes no time, works whatever SPUCNT says, and leaves all registers as they are.

A line b does what lines s with all halfwords of the sound would do. It needs transfer mode 1 or 2 to be
applied, and moves the transfer address on. If it is refused, nothing is moved. A bank of more than 1 GiB is
not read. If a bank is damaged, render says where and renders nothing. SCRIPT, the CD and the banks cannot
share a pipe or standard input. The program bank lists a bank.

render reports a line that is bad or refused by its number, and leaves it out. It also reports the first tick
from which the sound may rest on memory that nobody loaded.

render replaces the file OUT only when the sound is whole. A run that fails or is interrupted leaves OUT as
it was before. render never replaces a file that is not a WAV file, nor one that it also reads. Standard
output, devices and FIFOs get the sound while it is rendered, with a header for unknown length; a file holds
up to 6 hours and 45 minutes. If a CD file ends before its header says so, render reports it and plays
silence.

Exit status, the sum of what applies (0 if nothing does):
  1  the sound may rest on memory that nobody loaded
  2  lines were bad or refused; the others are rendered
  4  failed: wrong usage, a file that cannot be read or written, or a damaged bank; the file OUT is as it
     was before
";

pub const VERSION: &str = concat!("render ", env!("CARGO_PKG_VERSION"), "\n");
pub const USAGE: &str = "usage: render [OPTIONS] SCRIPT OUT (render --help says more)";

/// What the command line asks for.
#[derive(Debug, PartialEq, Eq)]
pub enum Request {
    Help,
    Version,
    Render(Options),
}

#[derive(Debug, PartialEq, Eq)]
pub struct Options {
    pub size: Size,
    pub cd: Option<PathBuf>,
    pub title: Option<PathBuf>,
    pub house: Option<PathBuf>,
    pub script: OsString,
    pub out: OsString,
}

/// Tells in plain words what is wrong with a command line.
pub fn parse(arguments: impl IntoIterator<Item = OsString>) -> Result<Request, String> {
    let mut arguments = arguments.into_iter();
    let mut size = Size::K512;
    let (mut cd, mut title, mut house) = (None, None, None);
    let mut names = Vec::new();
    while let Some(argument) = arguments.next() {
        let (option, value) = split(&argument);
        match option {
            b"--" if value.is_none() => names.extend(arguments.by_ref()),
            b"-h" | b"--help" if value.is_none() => return Ok(Request::Help),
            b"--version" if value.is_none() => return Ok(Request::Version),
            b"--ram" => size = ram(value.or_else(|| arguments.next()))?,
            b"--cd" => cd = Some(file(value.or_else(|| arguments.next()), "--cd needs the name of a WAV file")?),
            b"--title" => title = Some(file(value.or_else(|| arguments.next()), "--title needs the name of a bank")?),
            b"--house" => house = Some(file(value.or_else(|| arguments.next()), "--house needs the name of a bank")?),
            b"--help" | b"--version" => return Err(format!("{} takes no value", shown(OsStr::from_bytes(option)))),
            [b'-', _, ..] => return Err(format!("unknown option {}", shown(&argument))),
            _ => names.push(argument),
        }
    }
    let (script, out) = two_names(names, ["SCRIPT", "OUT"])?;
    Ok(Request::Render(Options { size, cd, title, house, script, out }))
}

fn ram(value: Option<OsString>) -> Result<Size, String> {
    let value = value.ok_or("--ram needs a value, 512 or 64")?;
    match value.as_bytes() {
        b"512" => Ok(Size::K512),
        b"64" => Ok(Size::K64),
        _ => Err(format!("--ram takes 512 or 64, not {}", shown(&value))),
    }
}

fn file(value: Option<OsString>, needed: &str) -> Result<PathBuf, String> {
    match value {
        Some(name) if !name.is_empty() => Ok(PathBuf::from(name)),
        _ => Err(needed.to_owned()),
    }
}

#[cfg(test)]
mod tests {
    use super::*;

    fn parsed(line: &str) -> Result<Request, String> {
        parse(line.split_whitespace().map(OsString::from))
    }

    fn options(size: Size, cd: Option<&str>, script: &str, out: &str) -> Result<Request, String> {
        let cd = cd.map(PathBuf::from);
        Ok(Request::Render(Options { size, cd, title: None, house: None, script: script.into(), out: out.into() }))
    }

    #[test]
    fn options_stand_before_or_after_the_names() {
        assert_eq!(parsed("a b"), options(Size::K512, None, "a", "b"));
        assert_eq!(parsed("--ram 64 --cd c a b"), options(Size::K64, Some("c"), "a", "b"));
        assert_eq!(parsed("a --ram=64 b --cd=c=d"), options(Size::K64, Some("c=d"), "a", "b"));
        assert_eq!(parsed("- -"), options(Size::K512, None, "-", "-"));
        assert_eq!(parsed("--ram 64 a b --ram 512"), options(Size::K512, None, "a", "b"));
    }

    #[test]
    fn either_bank_may_be_named() {
        let banks = |line| match parsed(line) {
            Ok(Request::Render(Options { title, house, .. })) => {
                [title, house].map(|bank| bank.map(PathBuf::into_os_string))
            }
            other => panic!("{other:?}"),
        };
        assert_eq!(banks("a b"), [None, None]);
        assert_eq!(banks("a b --title t"), [Some("t".into()), None]);
        assert_eq!(banks("--house=h a b"), [None, Some("h".into())]);
        assert_eq!(banks("--house h a --title=t b"), [Some("t".into()), Some("h".into())]);
    }

    #[test]
    fn two_hyphens_end_options() {
        assert_eq!(parsed("--ram 64 -- --ram --cd"), options(Size::K64, None, "--ram", "--cd"));
        assert_eq!(parsed("a -- --"), options(Size::K512, None, "a", "--"));
    }

    #[test]
    fn help_and_version_need_no_names() {
        for help in ["-h", "--help", "a --help", "a b c -h"] {
            assert_eq!(parsed(help), Ok(Request::Help));
        }
        assert_eq!(parsed("--version"), Ok(Request::Version));
    }

    #[test]
    fn a_wrong_command_line_is_told() {
        for (line, words) in [
            ("", "SCRIPT and OUT are missing"),
            ("a", "OUT is missing"),
            ("a b c", "one name too many: c"),
            ("--bogus a b", "unknown option --bogus"),
            ("a b -x", "unknown option -x"),
            ("a b --out=c", "unknown option --out=c"),
            ("--=c a b", "unknown option --=c"),
            ("a b --ram", "--ram needs a value, 512 or 64"),
            ("a b --ram 128", "--ram takes 512 or 64, not 128"),
            ("a b --ram=", "--ram takes 512 or 64, not "),
            ("a b --cd", "--cd needs the name of a WAV file"),
            ("a b --cd=", "--cd needs the name of a WAV file"),
            ("a b --title", "--title needs the name of a bank"),
            ("a b --title=", "--title needs the name of a bank"),
            ("a b --house", "--house needs the name of a bank"),
            ("--help=all", "--help takes no value"),
        ] {
            assert_eq!(parsed(line), Err(words.to_owned()), "{line}");
        }
        assert_eq!(parse(["a", ""].map(OsString::from)), Err("the name of OUT is empty".to_owned()));
    }
}
