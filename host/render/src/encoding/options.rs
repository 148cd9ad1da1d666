//! The command line of `encheck`.

use std::ffi::{OsStr, OsString};
use std::os::unix::ffi::OsStrExt;

use crate::arguments::{shown, split, two_names};

pub const HELP: &str = "\
usage: encheck [OPTIONS] ORIGINAL.wav ENCODED [E]

Says whether the blocks that an ADPCM encoder made decode to the sound that it was given.

ORIGINAL.wav is that sound: 16 bits, mono, any rate, PCM. ENCODED holds the blocks and nothing else: 16 bytes
for each 28 samples. One of the two may be - for standard input. E is the largest error, 0 to 65535.

Options, before or after the names:
  --pad           add zero samples to the originals up to a multiple of 28, as encoders do
  -h, --help      print this text
  --version       print the version
  --              what follows is a name, even if it begins with -

The answer is yes exactly when
  - ENCODED has as many blocks as ORIGINAL.wav has groups of 28 samples, and at least one
  - each sample, decoded with two zero samples before the first, is at most E away from its original
  - the last block, and no other, has the end flag (bit 0 of byte 1)
  - no block has filter 5, 6 or 7 (bits 4-6 of byte 0)

Without E, any error is allowed. If the answer is yes, encheck also says the smallest E with which it is yes.

If the answer is no, encheck names the first block at fault, its time in the sound, and each rule that it
breaks. If there are more blocks than groups of originals, or more groups than blocks, the first without a
partner is at fault. Blocks and samples are counted from 0.

Originals that are not a multiple of 28 are refused without --pad, and so are encoded bytes that are not a
multiple of 16. A file of more than 1 GiB is not read. The two files cannot share a pipe or standard input.

Exit status:
  0  yes
  1  no
  2  wrong usage
  4  failed: a file cannot be read, is of another kind or is refused, or standard output cannot be written
";

pub const VERSION: &str = concat!("encheck ", env!("CARGO_PKG_VERSION"), "\n");
pub const USAGE: &str = "usage: encheck [OPTIONS] ORIGINAL.wav ENCODED [E] (encheck --help says more)";

/// What the command line asks for.
#[derive(Debug, PartialEq, Eq)]
pub enum Request {
    Help,
    Version,
    Check(Options),
}

#[derive(Debug, PartialEq, Eq)]
pub struct Options {
    pub original: OsString,
    pub encoded: OsString,
    /// The largest error, if it is given.
    pub largest: Option<u16>,
    pub pad: bool,
}

/// Tells in plain words what is wrong with a command line.
pub fn parse(arguments: impl IntoIterator<Item = OsString>) -> Result<Request, String> {
    let mut arguments = arguments.into_iter();
    let (mut names, mut pad) = (Vec::new(), false);
    while let Some(argument) = arguments.next() {
        let (option, value) = split(&argument);
        match option {
            b"--" if value.is_none() => names.extend(arguments.by_ref()),
            b"-h" | b"--help" if value.is_none() => return Ok(Request::Help),
            b"--version" if value.is_none() => return Ok(Request::Version),
            b"--pad" if value.is_none() => pad = true,
            b"--help" | b"--version" | b"--pad" => {
                return Err(format!("{} takes no value", shown(OsStr::from_bytes(option))))
            }
            [b'-', digits @ ..] if is_number(digits) => return Err(wrong_error(&argument)),
            [b'-', _, ..] => return Err(format!("unknown option {}", shown(&argument))),
            _ => names.push(argument),
        }
    }
    let mut rest = names.split_off(names.len().min(2)).into_iter();
    let (original, encoded) = two_names(names, ["ORIGINAL", "ENCODED"])?;
    let largest = rest.next().map(|error| parse_error(&error)).transpose()?;
    match rest.next() {
        Some(fourth) => Err(format!("one name too many: {}", shown(&fourth))),
        None => Ok(Request::Check(Options { original, encoded, largest, pad })),
    }
}

fn parse_error(error: &OsStr) -> Result<u16, String> {
    let digits = error.to_str().filter(|digits| is_number(digits.as_bytes()));
    digits.and_then(|digits| digits.parse().ok()).ok_or_else(|| wrong_error(error))
}

fn is_number(bytes: &[u8]) -> bool {
    !bytes.is_empty() && bytes.iter().all(u8::is_ascii_digit)
}

fn wrong_error(error: &OsStr) -> String {
    format!("E is a decimal number, 0 to 65535, not {}", shown(error))
}

#[cfg(test)]
mod tests {
    use super::*;

    fn parsed(line: &str) -> Result<Request, String> {
        parse(line.split_whitespace().map(OsString::from))
    }

    fn options(original: &str, encoded: &str, largest: Option<u16>, pad: bool) -> Result<Request, String> {
        Ok(Request::Check(Options { original: original.into(), encoded: encoded.into(), largest, pad }))
    }

    #[test]
    fn the_error_may_be_left_out() {
        assert_eq!(parsed("a b"), options("a", "b", None, false));
        for (error, largest) in [("0", 0), ("50", 50), ("65535", 65_535), ("007", 7)] {
            assert_eq!(parsed(&format!("a b {error}")), options("a", "b", Some(largest), false));
        }
    }

    #[test]
    fn options_stand_before_or_after_the_names() {
        for line in ["--pad a b 5", "a --pad b 5", "a b 5 --pad", "--pad a b --pad -- 5"] {
            assert_eq!(parsed(line), options("a", "b", Some(5), true));
        }
        assert_eq!(parsed("- b"), options("-", "b", None, false));
        assert_eq!(parsed("-- --pad -5"), options("--pad", "-5", None, false));
    }

    #[test]
    fn help_and_version_need_no_names() {
        for help in ["-h", "--help", "a --help", "a b c d -h"] {
            assert_eq!(parsed(help), Ok(Request::Help));
        }
        assert_eq!(parsed("--version"), Ok(Request::Version));
    }

    #[test]
    fn a_wrong_command_line_is_told() {
        for (line, words) in [
            ("", "ORIGINAL and ENCODED are missing"),
            ("--pad", "ORIGINAL and ENCODED are missing"),
            ("a", "ENCODED is missing"),
            ("a b 5 c", "one name too many: c"),
            ("a b c", "E is a decimal number, 0 to 65535, not c"),
            ("a b 65536", "E is a decimal number, 0 to 65535, not 65536"),
            ("a b 99999999999999999999", "E is a decimal number, 0 to 65535, not 99999999999999999999"),
            ("a b +5", "E is a decimal number, 0 to 65535, not +5"),
            ("a b -5", "E is a decimal number, 0 to 65535, not -5"),
            ("a b -- -5", "E is a decimal number, 0 to 65535, not -5"),
            ("a b 5.0", "E is a decimal number, 0 to 65535, not 5.0"),
            ("a b 65,535", "E is a decimal number, 0 to 65535, not 65,535"),
            ("a b 0x10", "E is a decimal number, 0 to 65535, not 0x10"),
            ("--bogus a b", "unknown option --bogus"),
            ("a b -p", "unknown option -p"),
            ("a b --pad=0", "--pad takes no value"),
            ("--help=all", "--help takes no value"),
        ] {
            assert_eq!(parsed(line), Err(words.to_owned()), "{line}");
        }
        for (arguments, words) in [
            (["", "b", "5"], "the name of ORIGINAL is empty"),
            (["a", "", "5"], "the name of ENCODED is empty"),
            (["a", "b", ""], "E is a decimal number, 0 to 65535, not "),
        ] {
            assert_eq!(parse(arguments.map(OsString::from)), Err(words.to_owned()));
        }
    }
}
