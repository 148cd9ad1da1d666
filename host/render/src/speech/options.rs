//! The command line of `xa`.

use std::ffi::{OsStr, OsString};
use std::os::unix::ffi::OsStrExt;

use tenonwhisk::xa::{Bits, Channels};

use crate::arguments::{shown, split, two_names};
use crate::failure::Failure;
use crate::speech::sector::{Channel, Coding, Kind};

pub const HELP: &str = "\
usage: xa [OPTIONS] FILE OUT

Decodes XA sectors to a WAV file: 16 bits, mono or stereo, 37,800 or 18,900 Hz. Nothing is resampled.

FILE is a file, or - for standard input. OUT is a file, or - for standard output; it may also be a device or
a FIFO.

Options, before or after the names:
  --sector N      a sector has N bytes: 2304 (18 sound groups and nothing else), 2336 (a subheader before
                  them) or 2352 (a sync pattern and a header before that)
  --channel F:C   decode the sound of file number F and channel number C, each 0 to 255
  --channel C     decode the sound of channel number C
  --stereo        the sectors are stereo (the default)
  --mono          the sectors are mono
  --rate 37800    the rate is 37800 (the default) or 18900 Hz
  -h, --help      print this text
  --version       print the version
  --              what follows is a name, even if it begins with -

Without --sector, the length of FILE tells how many bytes a sector has. If it fits more than one N, the
content tells: every sector of 2352 bytes begins with a sync pattern, every subheader is repeated, and every
header byte of a sound group equals its copy. If neither tells, xa asks for --sector. With --sector, the last
sector may be cut.

Sectors of 2304 bytes say nothing of themselves. xa decodes them all, as --mono, --stereo and --rate say.
Sectors of 2336 and 2352 bytes have a subheader, which says whether they hold sound, of which file number and
channel number, mono or stereo, and at which rate; so they take none of the three options. xa decodes one
sound and skips all other sectors. If FILE holds more than one sound, xa lists them, and --channel chooses.

Standard input, pipes and devices are read only once. They need --sector, and if sectors have subheaders, xa
decodes the first sound, or the first that --channel names.

A sector is left out if it is damaged or cut, or if its samples have 8 bits: silence takes its place, and the
next sector goes on from the one before it. xa reports its number, its first byte in FILE, its time in the
sound, and what is wrong. Sectors, sound groups and bytes are counted from 0. If the sound changes between
mono and stereo or in its rate, or if none of its sectors can be decoded, xa fails.

xa replaces the file OUT only when the sound is whole. A run that fails or is interrupted leaves OUT as it was
before. xa never replaces a file that is not a WAV file, nor the one that it reads. Standard output, devices
and FIFOs get the sound while it is decoded, with a header for unknown length.

Exit status:
  0  the sound is decoded
  1  sectors were left out as silence; the others are decoded
  2  wrong usage
  4  failed: FILE cannot be read or decoded, OUT cannot be written, or an option does not fit FILE; the file
     OUT is as it was before
";

pub const VERSION: &str = concat!("xa ", env!("CARGO_PKG_VERSION"), "\n");
pub const USAGE: &str = "usage: xa [OPTIONS] FILE OUT (xa --help says more)";

/// What the command line asks for.
#[derive(Debug, PartialEq, Eq)]
pub enum Request {
    Help,
    Version,
    Decode(Options),
}

#[derive(Debug, PartialEq, Eq)]
pub struct Options {
    pub sector: Option<Kind>,
    pub channel: Option<Wanted>,
    channels: Option<Channels>,
    rate: Option<u32>,
    pub file: OsString,
    pub out: OsString,
}

/// The sound to decode.
#[derive(Debug, Clone, Copy, PartialEq, Eq)]
pub struct Wanted {
    /// `None` for any.
    file: Option<u8>,
    number: u8,
}

impl Wanted {
    pub fn is(self, channel: Channel) -> bool {
        self.number == channel.number && self.file.is_none_or(|file| file == channel.file)
    }
}

/// Tells in plain words what is wrong with a command line.
pub fn parse(arguments: impl IntoIterator<Item = OsString>) -> Result<Request, String> {
    let mut arguments = arguments.into_iter();
    let (mut sector, mut channel, mut channels, mut rate) = (None, None, None, None);
    let mut names = Vec::new();
    while let Some(argument) = arguments.next() {
        let (option, value) = split(&argument);
        match option {
            b"--" if value.is_none() => names.extend(arguments.by_ref()),
            b"-h" | b"--help" if value.is_none() => return Ok(Request::Help),
            b"--version" if value.is_none() => return Ok(Request::Version),
            b"--mono" if value.is_none() => channels = Some(Channels::Mono),
            b"--stereo" if value.is_none() => channels = Some(Channels::Stereo),
            b"--sector" => sector = Some(parse_sector(value.or_else(|| arguments.next()))?),
            b"--channel" => channel = Some(parse_channel(value.or_else(|| arguments.next()))?),
            b"--rate" => rate = Some(parse_rate(value.or_else(|| arguments.next()))?),
            b"--help" | b"--version" | b"--mono" | b"--stereo" => {
                return Err(format!("{} takes no value", shown(OsStr::from_bytes(option))))
            }
            [b'-', _, ..] => return Err(format!("unknown option {}", shown(&argument))),
            _ => names.push(argument),
        }
    }
    let (file, out) = two_names(names, ["FILE", "OUT"])?;
    Ok(Request::Decode(Options { sector, channel, channels, rate, file, out }))
}

fn parse_sector(value: Option<OsString>) -> Result<Kind, String> {
    let value = value.ok_or("--sector needs a value, 2304, 2336 or 2352")?;
    let kind = Kind::ALL.into_iter().find(|kind| value == *kind.bytes().to_string());
    kind.ok_or_else(|| format!("--sector takes 2304, 2336 or 2352, not {}", shown(&value)))
}

fn parse_rate(value: Option<OsString>) -> Result<u32, String> {
    let value = value.ok_or("--rate needs a value, 37800 or 18900")?;
    match value.as_bytes() {
        b"37800" => Ok(37_800),
        b"18900" => Ok(18_900),
        _ => Err(format!("--rate takes 37800 or 18900, not {}", shown(&value))),
    }
}

fn parse_channel(value: Option<OsString>) -> Result<Wanted, String> {
    let value = value.ok_or("--channel needs a value, F:C or C")?;
    let text = value.to_str().unwrap_or_default();
    let (file, number) = match text.split_once(':') {
        Some((file, number)) => (Some(small_number(file)), small_number(number)),
        None => (None, small_number(text)),
    };
    match (file, number) {
        (None, Some(number)) => Ok(Wanted { file: None, number }),
        (Some(Some(file)), Some(number)) => Ok(Wanted { file: Some(file), number }),
        _ => Err(format!("--channel takes F:C or C, each 0 to 255, not {}", shown(&value))),
    }
}

/// A decimal number up to 255, without a sign.
fn small_number(digits: &str) -> Option<u8> {
    digits.parse().ok().filter(|_| digits.bytes().all(|byte| byte.is_ascii_digit()))
}

impl Options {
    /// How sectors are coded that do not say it themselves.
    pub fn coding(&self) -> Coding {
        Coding {
            channels: self.channels.unwrap_or(Channels::Stereo),
            rate: self.rate.unwrap_or(37_800),
            bits: Bits::Four,
        }
    }

    /// Refuses options that say what sectors of a kind say themselves, and those that ask for what these do not have.
    pub fn refuse_unfit(&self, name: &str, kind: Kind) -> Result<(), Failure> {
        let channels = self.channels.map(|channels| match channels {
            Channels::Mono => "--mono",
            Channels::Stereo => "--stereo",
        });
        let (option, why) = match (kind.has_subheaders(), channels, self.rate, self.channel) {
            (true, Some(channels), ..) => (channels, "say themselves whether they are mono or stereo"),
            (true, _, Some(_), _) => ("--rate", "say themselves at which rate they play"),
            (false, _, _, Some(_)) => ("--channel", "belong to no channel"),
            _ => return Ok(()),
        };
        Err(Failure::new(format!("{name} has sectors of {} bytes, which {why}; leave out {option}", kind.bytes())))
    }
}

#[cfg(test)]
mod tests {
    use super::*;

    fn parsed(line: &str) -> Result<Request, String> {
        parse(line.split_whitespace().map(OsString::from))
    }

    fn options(line: &str) -> Options {
        match parsed(line) {
            Ok(Request::Decode(options)) => options,
            other => panic!("{line}: {other:?}"),
        }
    }

    #[test]
    fn options_stand_before_or_after_the_names() {
        let plain = options("a b");
        assert_eq!((plain.file.to_str(), plain.out.to_str()), (Some("a"), Some("b")));
        assert_eq!((plain.sector, plain.channel, plain.channels, plain.rate), (None, None, None, None));
        let all = options("--sector 2336 a --channel=1:31 --mono b --rate 18900");
        assert_eq!((all.sector, all.channels, all.rate), (Some(Kind::Of2336), Some(Channels::Mono), Some(18_900)));
        assert_eq!(all.channel, Some(Wanted { file: Some(1), number: 31 }));
        assert_eq!(options("a b --mono --stereo").channels, Some(Channels::Stereo));
        assert_eq!(options("--sector=2304 -- --mono -").file, "--mono");
        assert_eq!(options("- -").out, "-");
    }

    #[test]
    fn sectors_that_say_nothing_are_stereo_at_37800() {
        let coding = |line| options(line).coding();
        assert_eq!(coding("a b"), Coding { channels: Channels::Stereo, rate: 37_800, bits: Bits::Four });
        assert_eq!(coding("a b --mono --rate 18900").format().to_string(), "mono, 18900 Hz");
    }

    #[test]
    fn a_channel_has_a_file_number_or_any() {
        let wanted = |value: &str| options(&format!("a b --channel {value}")).channel.unwrap();
        let channel = |file, number| Channel { file, number };
        assert!(wanted("3").is(channel(0, 3)) && wanted("3").is(channel(255, 3)) && !wanted("3").is(channel(3, 0)));
        assert!(wanted("1:3").is(channel(1, 3)) && !wanted("1:3").is(channel(0, 3)));
        assert!(wanted("255:007").is(channel(255, 7)));
    }

    #[test]
    fn help_and_version_need_no_names() {
        for help in ["-h", "--help", "a --help", "a b c -h"] {
            assert_eq!(parsed(help), Ok(Request::Help));
        }
        assert_eq!(parsed("--version"), Ok(Request::Version));
    }

    #[test]
    fn a_wrong_command_line_is_told() {
        for (line, words) in [
            ("", "FILE and OUT are missing"),
            ("a", "OUT is missing"),
            ("a b c", "one name too many: c"),
            ("--bogus a b", "unknown option --bogus"),
            ("a b -m", "unknown option -m"),
            ("a b --sector", "--sector needs a value, 2304, 2336 or 2352"),
            ("a b --sector 2048", "--sector takes 2304, 2336 or 2352, not 2048"),
            ("a b --sector=02304", "--sector takes 2304, 2336 or 2352, not 02304"),
            ("a b --rate", "--rate needs a value, 37800 or 18900"),
            ("a b --rate 44100", "--rate takes 37800 or 18900, not 44100"),
            ("a b --channel", "--channel needs a value, F:C or C"),
            ("a b --channel 256", "--channel takes F:C or C, each 0 to 255, not 256"),
            ("a b --channel +1", "--channel takes F:C or C, each 0 to 255, not +1"),
            ("a b --channel 1:", "--channel takes F:C or C, each 0 to 255, not 1:"),
            ("a b --channel :1", "--channel takes F:C or C, each 0 to 255, not :1"),
            ("a b --channel 1:2:3", "--channel takes F:C or C, each 0 to 255, not 1:2:3"),
            ("a b --channel=", "--channel takes F:C or C, each 0 to 255, not "),
            ("a b --mono=yes", "--mono takes no value"),
            ("--help=all", "--help takes no value"),
        ] {
            assert_eq!(parsed(line), Err(words.to_owned()), "{line}");
        }
        assert_eq!(parse(["", "b"].map(OsString::from)), Err("the name of FILE is empty".to_owned()));
    }

    #[test]
    fn options_that_do_not_fit_the_sectors_are_told() {
        let unfit = |line, kind| options(line).refuse_unfit("f", kind).err().map(|failure| failure.to_string());
        for (line, kind, words) in [
            (
                "a b --stereo --rate 37800",
                Kind::Of2352,
                "f has sectors of 2352 bytes, which say themselves whether they are mono or stereo; leave out --stereo",
            ),
            (
                "a b --rate 18900",
                Kind::Of2336,
                "f has sectors of 2336 bytes, which say themselves at which rate they play; leave out --rate",
            ),
            (
                "a b --channel 0",
                Kind::Of2304,
                "f has sectors of 2304 bytes, which belong to no channel; leave out --channel",
            ),
        ] {
            assert_eq!(unfit(line, kind).as_deref(), Some(words));
        }
        assert_eq!(unfit("a b --mono --rate 18900", Kind::Of2304), None);
        assert_eq!(unfit("a b --channel 1:1", Kind::Of2336), None);
    }
}
