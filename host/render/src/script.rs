//! The lines of a script: `w OFFSET VALUE`, `s V ..`, `t N`, `l ADDRESS FILE`, `b NUMBER`, and comments.

use std::ffi::OsStr;
use std::io::{self, BufRead, BufReader, Read};
use std::os::unix::ffi::OsStrExt;
use std::path::PathBuf;

/// What a line asks for.
#[derive(Debug, PartialEq, Eq)]
pub enum Command {
    Write {
        offset: u32,
        value: u16,
    },
    /// At most one value more than a transfer takes.
    TransferIn(Vec<u16>),
    Ticks(u16),
    Load {
        address: u32,
        file: PathBuf,
    },
    /// Moves the sound of a bank that has this number.
    Sound(u32),
    /// A bad line, with what is expected.
    Bad(&'static str),
}

/// How many halfwords a transfer takes.
const MOST_VALUES: usize = 32;
/// The longest line, so that a file without line ends does not fill the memory.
const MOST_BYTES: u64 = 64 << 20;

const BAD_WRITE: &str = "w OFFSET VALUE is expected, each hex, 1 to 4 digits";
const BAD_TRANSFER: &str = "s V .. is expected, each V hex, 1 to 4 digits";
const BAD_TICKS: &str = "t N is expected, N decimal, up to 65535";
const BAD_LOAD: &str = "l ADDRESS FILE is expected, ADDRESS hex, 1 to 5 digits";
const BAD_SOUND: &str = "b NUMBER is expected, NUMBER decimal, up to 4294967295";
const BAD_WORD: &str = "w OFFSET VALUE, s V .., t N, l ADDRESS FILE, b NUMBER or # is expected";
const TOO_LONG: &str = "at most 64 MiB are expected";

/// The commands of a script, line by line.
pub struct Script<R> {
    input: BufReader<R>,
    line: Vec<u8>,
    number: u64,
}

impl<R: Read> Script<R> {
    pub fn new(input: R) -> Script<R> {
        Script { input: BufReader::new(input), line: Vec::new(), number: 0 }
    }

    /// The number of the line that was read last, from 1.
    pub fn line_number(&self) -> u64 {
        self.number
    }

    /// Whether the next command has to be read first, which may take time.
    pub fn must_read(&self) -> bool {
        self.input.buffer().is_empty()
    }

    /// The next command. It skips blank lines and comments.
    pub fn next_command(&mut self) -> io::Result<Option<Command>> {
        while self.read_line()? {
            self.number += 1;
            if self.line_goes_on() {
                while self.line_goes_on() && self.read_line()? {}
                return Ok(Some(Command::Bad(TOO_LONG)));
            }
            let line = trimmed(self.line.strip_suffix(b"\n").unwrap_or(&self.line));
            if !line.is_empty() && !line.starts_with(b"#") {
                return Ok(Some(parse(line).unwrap_or_else(Command::Bad)));
            }
        }
        Ok(None)
    }

    /// Reads a line, or as much of it as a line may have, and returns whether there was any.
    fn read_line(&mut self) -> io::Result<bool> {
        self.line.clear();
        Ok(self.input.by_ref().take(MOST_BYTES).read_until(b'\n', &mut self.line)? > 0)
    }

    fn line_goes_on(&self) -> bool {
        self.line.len() as u64 == MOST_BYTES && !self.line.ends_with(b"\n")
    }
}

fn is_blank(byte: &u8) -> bool {
    b" \t\r".contains(byte)
}

fn trimmed(mut line: &[u8]) -> &[u8] {
    while let [first, rest @ ..] = line {
        if !is_blank(first) {
            break;
        }
        line = rest;
    }
    while let [rest @ .., last] = line {
        if !is_blank(last) {
            break;
        }
        line = rest;
    }
    line
}

/// The first field, and what stands after it without the blanks at its ends.
fn first_field(line: &[u8]) -> (&[u8], &[u8]) {
    let line = trimmed(line);
    let end = line.iter().position(is_blank).unwrap_or(line.len());
    (&line[..end], trimmed(&line[end..]))
}

fn fields(line: &[u8]) -> impl Iterator<Item = &[u8]> {
    line.split(is_blank).filter(|field| !field.is_empty())
}

/// Returns what is expected if the line is bad.
fn parse(line: &[u8]) -> Result<Command, &'static str> {
    let (word, rest) = first_field(line);
    match word {
        b"w" => write(rest).ok_or(BAD_WRITE),
        b"s" => transfer_in(rest).ok_or(BAD_TRANSFER),
        b"t" => ticks(rest).ok_or(BAD_TICKS),
        b"l" => load(rest).ok_or(BAD_LOAD),
        b"b" => number(rest, 10).map(Command::Sound).ok_or(BAD_SOUND),
        _ => Err(BAD_WORD),
    }
}

fn write(rest: &[u8]) -> Option<Command> {
    let (offset, value) = first_field(rest);
    Some(Command::Write { offset: hex(offset, 4)?, value: hex(value, 4)? as u16 })
}

/// Looks at all values, so that a bad one among too many makes a bad line.
fn transfer_in(rest: &[u8]) -> Option<Command> {
    let mut values = Vec::new();
    for field in fields(rest) {
        let value = hex(field, 4)? as u16;
        if values.len() <= MOST_VALUES {
            values.push(value);
        }
    }
    (!values.is_empty()).then_some(Command::TransferIn(values))
}

fn ticks(rest: &[u8]) -> Option<Command> {
    let count = number(rest, 10)?;
    Some(Command::Ticks(u16::try_from(count).ok()?))
}

fn load(rest: &[u8]) -> Option<Command> {
    let (address, file) = first_field(rest);
    let address = hex(address, 5)?;
    (!file.is_empty()).then(|| Command::Load { address, file: PathBuf::from(OsStr::from_bytes(file)) })
}

fn hex(field: &[u8], most_digits: usize) -> Option<u32> {
    (field.len() <= most_digits).then_some(())?;
    number(field, 16)
}

/// One digit or more, without sign or prefix; any number of leading zeros.
fn number(field: &[u8], base: u32) -> Option<u32> {
    (!field.is_empty()).then_some(())?;
    field.iter().try_fold(0u32, |total, &byte| {
        let digit = char::from(byte).to_digit(base)?;
        total.checked_mul(base)?.checked_add(digit)
    })
}

#[cfg(test)]
mod tests {
    use super::*;

    fn commands(text: &str) -> Vec<Command> {
        let mut script = Script::new(text.as_bytes());
        std::iter::from_fn(|| script.next_command().unwrap()).collect()
    }

    fn load(address: u32, file: &str) -> Command {
        Command::Load { address, file: file.into() }
    }

    #[test]
    fn lines_end_with_lf_or_with_the_input() {
        assert_eq!(commands(""), []);
        assert_eq!(commands("t 1"), [Command::Ticks(1)]);
        assert_eq!(commands("t 1\n"), [Command::Ticks(1)]);
        assert_eq!(commands("t 1\nt 2"), [Command::Ticks(1), Command::Ticks(2)]);
    }

    #[test]
    fn blanks_part_fields() {
        let write = || Command::Write { offset: 0x180, value: 0x3FFF };
        assert_eq!(commands("w 180 3fff\n\t w\t180  3FFF \r\n"), [write(), write()]);
        assert_eq!(commands("s 1 02 00A\r"), [Command::TransferIn(vec![1, 2, 10])]);
    }

    #[test]
    fn counts_are_decimal_up_to_65535() {
        assert_eq!(commands("t 0\nt 000000000065535"), [Command::Ticks(0), Command::Ticks(65535)]);
    }

    #[test]
    fn numbers_of_sounds_are_decimal_and_have_32_bits() {
        assert_eq!(commands("b 0\n b\t0017 \r\nb 1024"), [0, 17, 1024].map(Command::Sound));
        assert_eq!(commands("b 4294967295\nb 00000004294967295"), [u32::MAX; 2].map(Command::Sound));
    }

    #[test]
    fn blank_lines_and_comments_count_as_lines() {
        let mut script = Script::new(&b"\n \t\r\n# t 1\n  #\r\nt 2\n#"[..]);
        assert_eq!(script.next_command().unwrap(), Some(Command::Ticks(2)));
        assert_eq!(script.line_number(), 5);
        assert_eq!(script.next_command().unwrap(), None);
        assert_eq!(script.line_number(), 6);
    }

    #[test]
    fn a_file_name_is_the_rest_of_the_line() {
        assert_eq!(commands("l 1000 kick.bin"), [load(0x1000, "kick.bin")]);
        assert_eq!(commands(" l\t7FFf8  a b\t#c.bin \t\r\n"), [load(0x7FFF8, "a b\t#c.bin")]);
        assert_eq!(commands("l 0 0"), [load(0, "0")]);
    }

    #[test]
    fn a_file_name_may_be_any_bytes() {
        let command = Script::new(&b"l 8 \xFF\xFE"[..]).next_command().unwrap();
        assert_eq!(command, Some(Command::Load { address: 8, file: OsStr::from_bytes(b"\xFF\xFE").into() }));
    }

    #[test]
    fn a_bad_line_says_what_is_expected() {
        let bad = |lines: &str, expected| {
            assert!(commands(lines).iter().all(|command| *command == Command::Bad(expected)));
            assert_eq!(commands(lines).len(), lines.lines().count());
        };
        bad("w\nw 180\nw 180 1 2\nw 00180 1\nw 180 10000\nw 0x180 1\nw -1 1", BAD_WRITE);
        bad("s\ns 1 g\ns 10000\ns 1 -1", BAD_TRANSFER);
        bad("t\nt 65536\nt 1 1\nt +1\nt a\nt 99999999999999999999", BAD_TICKS);
        bad("l\nl 1000\nl 001000 a\nl kick.bin 1000\nl 0x10 a\nl -8 a", BAD_LOAD);
        bad("b\nb 4294967296\nb 1 2\nb -1\nb +1\nb A\nb 10h\nb 0x10\nb 99999999999999999999", BAD_SOUND);
        bad("W 180 1\nr 180\nB 1\nb1\n\0t 1\nt\u{b}1\nt# 1\n180 1\ntt 1\nload 0 a", BAD_WORD);
    }

    #[test]
    fn a_transfer_may_be_too_long() {
        assert_eq!(commands(&format!("s{}", " 0".repeat(33))), [Command::TransferIn(vec![0; 33])]);
        assert_eq!(commands(&format!("s{}", " 0".repeat(1000))), [Command::TransferIn(vec![0; 33])]);
        assert_eq!(commands(&format!("s{} x", " 0".repeat(1000))), [Command::Bad(BAD_TRANSFER)]);
    }

    #[test]
    fn a_line_without_end_does_not_fill_the_memory() {
        let endless = io::repeat(b'0').take(MOST_BYTES + 100).chain(&b"\nt 1"[..]);
        let mut script = Script::new(endless);
        assert_eq!(script.next_command().unwrap(), Some(Command::Bad(TOO_LONG)));
        assert_eq!(script.next_command().unwrap(), Some(Command::Ticks(1)));
        assert_eq!(script.line_number(), 2);
    }

    #[test]
    fn a_read_error_is_no_end() {
        struct Broken;
        impl Read for Broken {
            fn read(&mut self, _: &mut [u8]) -> io::Result<usize> {
                Err(io::Error::other("broken"))
            }
        }
        let mut script = Script::new(b"t 1\nt 2".chain(Broken));
        assert_eq!(script.next_command().unwrap(), Some(Command::Ticks(1)));
        assert_eq!(script.next_command().unwrap_err().to_string(), "broken");
    }
}
