//! `bank [OPTIONS] FILE`: lists a sound bank, and says what is damaged and where. `bank --help` says more.

#![deny(unsafe_code)]

use std::ffi::OsString;
use std::os::unix::ffi::OsStrExt;
use std::process::ExitCode;

use tenonwhisk_render::console::{self, Console};
use tenonwhisk_render::failure::Failure;
use tenonwhisk_render::source::Source;
use tenonwhisk_render::{banks, damage, listing, words};

const HELP: &str = "\
usage: bank [OPTIONS] FILE

Lists a sound bank, and says what is damaged and where.

FILE is a file of up to 1 GiB, or - for standard input.

Options, before or after the name:
  -h, --help      print this text
  --version       print the version
  --              what follows is a name, even if it begins with -

Each entry has a line: its number, its kind, where it begins (in bytes from the bank's start) and its blocks
of 16 bytes. An alias has the entry of the sound that it leads to instead, and the aliases on the way. A
damaged entry is marked DAMAGED, with the reason. The last line counts entries and bytes. Bytes are unused
if they stand after the header and belong to no sound.

Standard error says where the bank is damaged first. If its header is damaged, nothing is listed.

Exit status:
  0  the bank is good
  1  the bank is damaged
  2  wrong usage
  4  failed: FILE cannot be read, or standard output cannot be written
";
const VERSION: &str = concat!("bank ", env!("CARGO_PKG_VERSION"), "\n");
const USAGE: &str = "usage: bank [OPTIONS] FILE (bank --help says more)";

const DAMAGED: u8 = 1;
const WRONG_USAGE: u8 = 2;
const FAILED: u8 = 4;

enum Request {
    Print(&'static str),
    List(OsString),
}

fn main() -> ExitCode {
    let mut console = Console::new();
    let done = match parse(std::env::args_os().skip(1)) {
        Ok(Request::Print(text)) => console::print(text).map(|()| 0),
        Ok(Request::List(name)) => list(&name, &mut console),
        Err(words) => {
            console.line(&words);
            console.line(USAGE);
            Ok(WRONG_USAGE)
        }
    };
    ExitCode::from(done.unwrap_or_else(|failure| {
        console.line(&failure.to_string());
        FAILED
    }))
}

/// Tells in plain words what is wrong with a command line.
fn parse(arguments: impl Iterator<Item = OsString>) -> Result<Request, String> {
    let (mut names, mut options_ended) = (Vec::new(), false);
    for argument in arguments {
        match argument.as_bytes() {
            _ if options_ended => names.push(argument),
            b"--" => options_ended = true,
            b"-h" | b"--help" => return Ok(Request::Print(HELP)),
            b"--version" => return Ok(Request::Print(VERSION)),
            [b'-', _, ..] => return Err(format!("unknown option {}", words::name(argument.as_ref()))),
            _ => names.push(argument),
        }
    }
    let mut names = names.into_iter();
    match (names.next(), names.next()) {
        (None, _) => Err("FILE is missing".to_owned()),
        (_, Some(second)) => Err(format!("one name too many: {}", words::name(second.as_ref()))),
        (Some(name), None) if name.is_empty() => Err("the name of FILE is empty".to_owned()),
        (Some(name), None) => Ok(Request::List(name)),
    }
}

fn list(name: &OsString, console: &mut Console) -> Result<u8, Failure> {
    let source = Source::find(name)?;
    let name = source.name.clone();
    let bank = banks::read(source)?;
    if tenonwhisk::bank::check(&bank) != Err(tenonwhisk::bank::Damage::Header) {
        console::print(&listing::text(&name, &bank))?;
    }
    Ok(match damage::first(&bank) {
        Some(words) => {
            console.line(&format!("{name}: {words}"));
            DAMAGED
        }
        None => 0,
    })
}
