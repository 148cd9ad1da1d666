//! The sound as it is written: to a temporary file that takes the target's place, or to a stream.

use std::fs::File;
use std::io::{self, BufWriter, Seek, Write};
use std::path::PathBuf;

use crate::failure::Failure;
use crate::files::Identity;
use crate::system::{self, Ending};
use crate::target::{Kind, Target};
use crate::temporary::Temporary;
use crate::wav::{self, Format, Length};

const BUFFER_BYTES: usize = 1 << 16;

pub struct Output {
    name: String,
    identity: Option<Identity>,
    sound: Sound<File>,
    /// The temporary file and the path whose place it will take. A stream has none.
    replacing: Option<(Temporary, PathBuf)>,
}

impl Output {
    pub fn open(target: Target, format: Format) -> Result<Output, Failure> {
        let Target { name, identity, kind, program } = target;
        let opened = match kind {
            Kind::File { path, old } => Temporary::create(program, &path, old.as_ref())
                .and_then(|(temporary, file)| Ok((Sound::of_file(file, format)?, Some((temporary, path))))),
            Kind::Stream(path) => {
                File::options().write(true).open(path).and_then(|file| Ok((Sound::of_stream(file, format)?, None)))
            }
            Kind::StandardOutput(file) => Sound::of_stream(file, format).map(|sound| (sound, None)),
        };
        let (sound, replacing) = opened.map_err(|error| Failure::writing(&name, &error))?;
        if replacing.is_none() {
            system::set_ending(Ending::StreamBegun);
        }
        Ok(Output { name, identity, sound, replacing })
    }

    pub fn is_stream(&self) -> bool {
        self.replacing.is_none()
    }

    /// Whether this is the file that is written or the one that it will replace.
    pub fn is(&self, identity: Option<Identity>) -> bool {
        let temporary = self.replacing.as_ref().and_then(|(temporary, _)| temporary.identity);
        identity.is_some() && (identity == self.identity || identity == temporary)
    }

    /// Frames so far.
    pub fn frames(&self) -> u64 {
        self.sound.frames
    }

    /// Writes whole frames; of a stereo sound left, right, left, ..
    pub fn write(&mut self, samples: &[i16]) -> Result<(), Failure> {
        self.sound.write(samples).map_err(|error| Failure::writing(&self.name, &error))
    }

    pub fn flush(&mut self) -> Result<(), Failure> {
        self.sound.to.flush().map_err(|error| Failure::writing(&self.name, &error))
    }

    /// Completes the output. A file takes the target's place only now.
    pub fn finish(self) -> Result<(), Failure> {
        let Output { name, sound, replacing, .. } = self;
        let finished = match replacing {
            Some((temporary, path)) => sound.finish_file().and_then(|()| temporary.take_place(&path)),
            None => sound.finish_stream().map(|()| system::set_ending(Ending::Whole)),
        };
        finished.map_err(|error| Failure::writing(name, &error))
    }
}

/// A WAV file as a stream of frames.
struct Sound<W: Write> {
    to: BufWriter<W>,
    format: Format,
    frames: u64,
    most_frames: u64,
    bytes: Vec<u8>,
}

impl<W: Write> Sound<W> {
    fn of_file(to: W, format: Format) -> io::Result<Sound<W>> {
        Sound::begin(to, format, Length::Frames(0), format.most_frames())
    }

    fn of_stream(to: W, format: Format) -> io::Result<Sound<W>> {
        Sound::begin(to, format, Length::Unknown, u64::MAX)
    }

    fn begin(to: W, format: Format, length: Length, most_frames: u64) -> io::Result<Sound<W>> {
        let mut to = BufWriter::with_capacity(BUFFER_BYTES, to);
        to.write_all(&wav::header(format, length))?;
        Ok(Sound { to, format, frames: 0, most_frames, bytes: Vec::new() })
    }

    fn write(&mut self, samples: &[i16]) -> io::Result<()> {
        let frames = samples.len() as u64 / u64::from(self.format.channels);
        if frames > self.most_frames - self.frames {
            return Err(io::Error::other(format!("a WAV file holds no more than {}", self.format.longest())));
        }
        self.bytes.clear();
        self.bytes.extend(samples.iter().flat_map(|sample| sample.to_le_bytes()));
        self.to.write_all(&self.bytes)?;
        self.frames += frames;
        Ok(())
    }
}

impl Sound<File> {
    /// Completes the header and waits until the disk has everything.
    fn finish_file(mut self) -> io::Result<()> {
        self.to.rewind()?;
        self.to.write_all(&wav::header(self.format, Length::Frames(self.frames)))?;
        self.to.flush()?;
        sync(self.to.get_ref())
    }

    fn finish_stream(mut self) -> io::Result<()> {
        self.to.flush()?;
        match self.to.get_ref() {
            file if file.metadata()?.is_file() => sync(file),
            _ => Ok(()),
        }
    }
}

/// A full disk may say so only now. Some file systems do not offer this.
fn sync(file: &File) -> io::Result<()> {
    match file.sync_all() {
        Err(error) if matches!(error.kind(), io::ErrorKind::InvalidInput | io::ErrorKind::Unsupported) => Ok(()),
        synced => synced,
    }
}

#[cfg(test)]
mod tests {
    use super::*;

    #[test]
    fn samples_are_written_low_byte_first() {
        let mut sound = Sound::of_stream(Vec::new(), Format::CHIP).unwrap();
        sound.write(&[1, -2]).unwrap();
        sound.write(&[0x1234, i16::MIN]).unwrap();
        assert_eq!(sound.frames, 2);
        let bytes = sound.to.into_inner().unwrap();
        assert_eq!(bytes[44..], [1, 0, 0xFE, 0xFF, 0x34, 0x12, 0x00, 0x80]);
    }

    #[test]
    fn a_file_holds_no_more_than_its_header_counts() {
        let mut sound = Sound::of_file(io::sink(), Format::CHIP).unwrap();
        let most_frames = Format::CHIP.most_frames();
        sound.frames = most_frames - 2;
        sound.write(&[0; 2]).unwrap();
        assert!(sound.write(&[0; 4]).unwrap_err().to_string().contains("6 hours and 45 minutes"));
        sound.write(&[0; 2]).unwrap();
        assert_eq!(sound.frames, most_frames);
    }

    #[test]
    fn a_stream_goes_on() {
        let mut sound = Sound::of_stream(io::sink(), Format::CHIP).unwrap();
        sound.frames = Format::CHIP.most_frames();
        sound.write(&[0; 4]).unwrap();
        assert_eq!(sound.frames, Format::CHIP.most_frames() + 2);
    }

    #[test]
    fn a_frame_of_mono_is_one_sample() {
        let mut sound = Sound::of_stream(io::sink(), Format { channels: 1, rate: 37_800 }).unwrap();
        sound.write(&[0; 3]).unwrap();
        assert_eq!(sound.frames, 3);
    }
}
