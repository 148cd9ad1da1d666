//! A sector as it stands in a file, and what its subheader says.

use std::fmt;
use std::io::{self, BufReader, Read};

use tenonwhisk::xa::{self, Bits, Channels};

use crate::speech::faults;
use crate::wav::Format;

/// What the sectors of a file consist of, by their bytes.
#[derive(Debug, Clone, Copy, PartialEq, Eq)]
pub enum Kind {
    /// Sound groups, and nothing that says what they are.
    Of2304,
    /// A subheader, sound groups, and 24 bytes more.
    Of2336,
    /// A sync pattern, a header, and then what a sector of 2,336 bytes has.
    Of2352,
}

impl Kind {
    pub const ALL: [Kind; 3] = [Kind::Of2304, Kind::Of2336, Kind::Of2352];

    pub fn bytes(self) -> usize {
        match self {
            Kind::Of2304 => 2304,
            Kind::Of2336 => 2336,
            Kind::Of2352 => 2352,
        }
    }

    /// Where the subheader begins, if there is one.
    fn subheader_at(self) -> Option<usize> {
        match self {
            Kind::Of2304 => None,
            Kind::Of2336 => Some(0),
            Kind::Of2352 => Some(16),
        }
    }

    /// Whether its sectors say what they hold.
    pub fn has_subheaders(self) -> bool {
        self.subheader_at().is_some()
    }

    /// Where the sound groups begin.
    fn groups_at(self) -> usize {
        self.subheader_at().map_or(0, |at| at + 2 * SUBHEADER_BYTES)
    }
}

const SYNC: [u8; 12] = [0, 0xFF, 0xFF, 0xFF, 0xFF, 0xFF, 0xFF, 0xFF, 0xFF, 0xFF, 0xFF, 0];
/// Where the header of a sector of 2,352 bytes has its mode, and the mode of sectors with a subheader.
const MODE_AT: usize = 15;
const MODE: u8 = 2;

/// A file number and a channel number, which together name a sound of a file.
#[derive(Debug, Clone, Copy, PartialEq, Eq, PartialOrd, Ord)]
pub struct Channel {
    pub file: u8,
    pub number: u8,
}

impl fmt::Display for Channel {
    fn fmt(&self, f: &mut fmt::Formatter<'_>) -> fmt::Result {
        write!(f, "{}:{}", self.file, self.number)
    }
}

/// How the sound of a sector is coded.
#[derive(Debug, Clone, Copy, PartialEq, Eq)]
pub struct Coding {
    pub channels: Channels,
    pub rate: u32,
    pub bits: Bits,
}

impl Coding {
    pub fn format(self) -> Format {
        let channels = match self.channels {
            Channels::Mono => 1,
            Channels::Stereo => 2,
        };
        Format { channels, rate: self.rate }
    }

    /// The samples of a sector. Those of 8 bits take twice the room.
    pub fn samples(self) -> usize {
        match self.bits {
            Bits::Four => xa::SAMPLES,
            Bits::Eight => xa::SAMPLES / 2,
        }
    }
}

const SUBHEADER_BYTES: usize = 4;

/// A subheader. It stands twice in a sector.
#[derive(Debug, Clone, Copy, PartialEq, Eq)]
pub struct Subheader {
    pub channel: Channel,
    submode: u8,
    /// The coding information.
    pub coding_byte: u8,
}

impl Subheader {
    fn of(bytes: [u8; SUBHEADER_BYTES]) -> Subheader {
        let [file, number, submode, coding_byte] = bytes;
        Subheader { channel: Channel { file, number }, submode, coding_byte }
    }

    pub fn is_sound(self) -> bool {
        self.submode & 0x04 != 0
    }

    /// `None` if the coding information has a value that is reserved. The emphasis, bit 6, changes no sample.
    pub fn coding(self) -> Option<Coding> {
        let field = |shift: u8| self.coding_byte >> shift & 3;
        Some(Coding {
            channels: [Channels::Mono, Channels::Stereo].get(usize::from(field(0))).copied()?,
            rate: [37_800, 18_900].get(usize::from(field(2))).copied()?,
            bits: [Bits::Four, Bits::Eight].get(usize::from(field(4))).copied()?,
        })
    }
}

/// The four bytes, in hex.
impl fmt::Display for Subheader {
    fn fmt(&self, f: &mut fmt::Formatter<'_>) -> fmt::Result {
        let Subheader { channel: Channel { file, number }, submode, coding_byte } = self;
        write!(f, "{file:02X} {number:02X} {submode:02X} {coding_byte:02X}")
    }
}

pub struct Sector {
    /// Counted from 0 in the file.
    pub number: u64,
    kind: Kind,
    /// Fewer than the kind has if the file ends.
    bytes: Vec<u8>,
}

impl Sector {
    /// Where it begins in the file, in bytes.
    pub fn at(&self) -> u64 {
        self.number * self.kind.bytes() as u64
    }

    /// The sound groups; if the file ends within the sector, what is wrong.
    pub fn groups(&self) -> Result<&[u8], String> {
        if self.bytes.len() < self.kind.bytes() {
            return Err(self.cut());
        }
        Ok(&self.bytes[self.kind.groups_at()..][..xa::SECTOR_BYTES])
    }

    fn cut(&self) -> String {
        faults::of_cut(self.bytes.len(), self.kind.bytes())
    }

    /// The subheader and its copy, if they are there.
    pub fn subheaders(&self) -> Option<[Subheader; 2]> {
        let bytes = self.bytes.get(self.kind.subheader_at()?..)?;
        let copy = bytes.get(SUBHEADER_BYTES..)?;
        Some([Subheader::of(*bytes.first_chunk()?), Subheader::of(*copy.first_chunk()?)])
    }

    pub fn has_sync(&self) -> bool {
        self.bytes.starts_with(&SYNC)
    }

    /// Whether the sector says that it has a subheader. A sector of 2,336 bytes has no place to say so.
    fn is_of_mode_2(&self) -> bool {
        self.kind != Kind::Of2352 || self.has_sync() && self.bytes.get(MODE_AT) == Some(&MODE)
    }

    /// The subheader of a sector that surely holds sound.
    pub fn sound_subheader(&self) -> Option<Subheader> {
        let [subheader, copy] = self.subheaders()?;
        (subheader == copy && subheader.is_sound() && self.is_of_mode_2()).then_some(subheader)
    }

    /// Whether the sector holds sound of a channel, or may: if the subheader differs from its copy, either may be right,
    /// and if the file ends before them, nobody knows.
    pub fn may_be_of(&self, channel: Channel) -> bool {
        let names = |subheader: Subheader| subheader.is_sound() && subheader.channel == channel;
        self.subheaders().is_none_or(|[subheader, copy]| match subheader == copy {
            true => names(subheader),
            false => self.is_of_mode_2() && (names(subheader) || names(copy)),
        })
    }

    /// How the sound is coded, if the subheaders agree and say so; else what is wrong with them.
    pub fn coding(&self) -> Result<Coding, String> {
        let [subheader, copy] = self.subheaders().ok_or_else(|| self.cut())?;
        let coding = subheader.coding().filter(|_| subheader == copy);
        coding.ok_or_else(|| faults::of_subheaders(subheader, copy))
    }
}

const BUFFER_BYTES: usize = 1 << 16;

/// The sectors of a file, one after the other.
pub struct Sectors<R> {
    input: BufReader<R>,
    kind: Kind,
    count: u64,
}

impl<R: Read> Sectors<R> {
    pub fn new(input: R, kind: Kind) -> Sectors<R> {
        Sectors { input: BufReader::with_capacity(BUFFER_BYTES, input), kind, count: 0 }
    }

    /// Whether the next sector has to be read first, which may take time.
    pub fn must_read(&self) -> bool {
        self.input.buffer().len() < self.kind.bytes()
    }

    fn read(&mut self) -> io::Result<Option<Sector>> {
        let mut bytes = Vec::with_capacity(self.kind.bytes());
        self.input.by_ref().take(self.kind.bytes() as u64).read_to_end(&mut bytes)?;
        if bytes.is_empty() {
            return Ok(None);
        }
        let number = self.count;
        self.count += 1;
        Ok(Some(Sector { number, kind: self.kind, bytes }))
    }
}

impl<R: Read> Iterator for Sectors<R> {
    type Item = io::Result<Sector>;

    fn next(&mut self) -> Option<io::Result<Sector>> {
        self.read().transpose()
    }
}

#[cfg(test)]
mod tests {
    use super::*;

    const SOUND: [u8; 4] = [1, 2, 0x64, 0x01];
    const CHANNEL: Channel = Channel { file: 1, number: 2 };

    /// A sector of 2,352 bytes.
    fn sector(subheader: [u8; 4], copy: [u8; 4]) -> Sector {
        let mut bytes = [&SYNC[..], &[0, 2, 0, MODE], &subheader, &copy].concat();
        bytes.resize(2352, 0);
        Sector { number: 3, kind: Kind::Of2352, bytes }
    }

    #[test]
    fn sectors_are_read_one_by_one_and_the_last_may_be_cut() {
        let bytes: Vec<u8> = (0..2336 * 2 + 100).map(|k| (k / 2336) as u8).collect();
        let mut sectors = Sectors::new(&bytes[..], Kind::Of2336);
        for number in 0..2 {
            let sector = sectors.next().unwrap().unwrap();
            assert_eq!((sector.number, sector.at()), (number, 2336 * number));
            assert_eq!(sector.groups(), Ok(&[number as u8; 2304][..]));
        }
        let cut = sectors.next().unwrap().unwrap();
        assert_eq!(cut.groups(), Err("it ends after 100 of 2336 bytes".to_owned()));
        assert!(cut.subheaders().is_some() && sectors.next().is_none());
    }

    #[test]
    fn the_coding_information_has_fields() {
        let coding = |byte| Subheader::of([0, 0, 0, byte]).coding();
        let told = |byte| coding(byte).map(|coding: Coding| (coding.format().to_string(), coding.samples()));
        assert_eq!(told(0x00), Some(("mono, 37800 Hz".to_owned(), 4032)));
        assert_eq!(told(0x01), Some(("stereo, 37800 Hz".to_owned(), 4032)));
        assert_eq!(told(0x44), Some(("mono, 18900 Hz".to_owned(), 4032)));
        assert_eq!(told(0x95), Some(("stereo, 18900 Hz".to_owned(), 2016)));
        for reserved in [0x02, 0x03, 0x08, 0x0C, 0x20, 0x30] {
            assert_eq!(coding(reserved), None);
        }
    }

    #[test]
    fn a_sector_of_a_channel_says_so() {
        assert!(sector(SOUND, SOUND).may_be_of(CHANNEL));
        for [file, number, submode] in [[0, 2, 0x64], [1, 0, 0x64], [1, 2, 0x48], [1, 2, 0xFB]] {
            let other = [file, number, submode, 1];
            assert!(!sector(other, other).may_be_of(CHANNEL), "{other:?}");
            assert!(sector(SOUND, other).may_be_of(CHANNEL) && sector(other, SOUND).may_be_of(CHANNEL), "{other:?}");
        }
        assert!(!sector([0, 2, 0x64, 1], [1, 0, 0x64, 1]).may_be_of(CHANNEL));
    }

    #[test]
    fn the_sync_pattern_may_be_damaged() {
        let mut damaged = sector(SOUND, SOUND);
        damaged.bytes[5] = 0;
        assert!(damaged.may_be_of(CHANNEL) && damaged.sound_subheader().is_none());
        damaged.bytes[20] ^= 1;
        assert!(!damaged.may_be_of(CHANNEL));
    }

    #[test]
    fn a_sector_without_subheaders_may_be_of_any_channel() {
        for (length, known) in [(0, false), (23, false), (24, true)] {
            let mut cut = sector([0; 4], [0; 4]);
            cut.bytes.truncate(length);
            assert_eq!(cut.may_be_of(CHANNEL), !known, "{length} bytes");
            assert!(cut.groups().is_err());
        }
    }

    #[test]
    fn subheaders_that_do_not_tell_the_coding_are_told() {
        let wrong = |subheader, copy| sector(subheader, copy).coding().unwrap_err();
        assert_eq!(wrong(SOUND, [1, 2, 0x64, 0]), "its subheader is 01 02 64 01, but the copy of it is 01 02 64 00");
        assert_eq!(wrong([1, 2, 0x64, 0x0A], [1, 2, 0x64, 0x0A]), "its coding information is 0Ah, which is reserved");
    }
}
