//! The WAV format: 16 bits, PCM.

use std::fmt;

/// The chip's rate, and that of its CD input.
pub const RATE: u32 = 44_100;
pub const PAIR_BYTES: u32 = 4;
const HEADER_BYTES: u32 = 44;

/// What a sound is made of, besides its samples of 16 bits.
#[derive(Debug, Clone, Copy, PartialEq, Eq)]
pub struct Format {
    pub channels: u16,
    /// Frames a second. A frame is a sample of each channel.
    pub rate: u32,
}

impl Format {
    /// The format of the chip's sound.
    pub const CHIP: Format = Format { channels: 2, rate: RATE };

    fn frame_bytes(self) -> u32 {
        2 * u32::from(self.channels)
    }

    /// A WAV file counts its bytes in 32 bits: so many frames fit.
    pub fn most_frames(self) -> u64 {
        u64::from((u32::MAX - (HEADER_BYTES - 8)) / self.frame_bytes())
    }

    /// The time that [`Format::most_frames`] take.
    pub fn longest(self) -> String {
        let minutes = self.most_frames() / u64::from(self.rate) / 60;
        format!("{} hours and {} minutes", minutes / 60, minutes % 60)
    }
}

impl fmt::Display for Format {
    fn fmt(&self, f: &mut fmt::Formatter<'_>) -> fmt::Result {
        match self.channels {
            1 => f.write_str("mono")?,
            2 => f.write_str("stereo")?,
            channels => write!(f, "{channels} channels")?,
        }
        write!(f, ", {} Hz", self.rate)
    }
}

/// What a header says about the length of the sound.
#[derive(Clone, Copy)]
pub enum Length {
    /// Up to [`Format::most_frames`].
    Frames(u64),
    /// The sound goes on to the end of the stream.
    Unknown,
}

pub fn header(format: Format, length: Length) -> [u8; HEADER_BYTES as usize] {
    let frame_bytes = format.frame_bytes();
    let (riff_bytes, data_bytes) = match length {
        Length::Frames(frames) => {
            let data_bytes = frames.min(format.most_frames()) as u32 * frame_bytes;
            (HEADER_BYTES - 8 + data_bytes, data_bytes)
        }
        Length::Unknown => (u32::MAX, u32::MAX),
    };
    let mut header = [0; HEADER_BYTES as usize];
    header[..4].copy_from_slice(b"RIFF");
    header[4..8].copy_from_slice(&riff_bytes.to_le_bytes());
    header[8..16].copy_from_slice(b"WAVEfmt ");
    header[16..20].copy_from_slice(&16u32.to_le_bytes());
    header[20..22].copy_from_slice(&1u16.to_le_bytes()); // PCM
    header[22..24].copy_from_slice(&format.channels.to_le_bytes());
    header[24..28].copy_from_slice(&format.rate.to_le_bytes());
    header[28..32].copy_from_slice(&(format.rate * frame_bytes).to_le_bytes());
    header[32..34].copy_from_slice(&(frame_bytes as u16).to_le_bytes());
    header[34..36].copy_from_slice(&16u16.to_le_bytes()); // bits of a sample
    header[36..40].copy_from_slice(b"data");
    header[40..].copy_from_slice(&data_bytes.to_le_bytes());
    header
}

/// Whether a file that begins with these bytes is a WAV file.
pub fn is_wav(beginning: &[u8]) -> bool {
    beginning.len() >= 12 && beginning.starts_with(b"RIFF") && beginning[8..12] == *b"WAVE"
}

#[cfg(test)]
mod tests {
    use super::*;

    fn lengths(header: &[u8]) -> [u32; 2] {
        [4, 40].map(|at| u32::from_le_bytes(header[at..at + 4].try_into().unwrap()))
    }

    const MONO: Format = Format { channels: 1, rate: 18_900 };

    #[test]
    fn a_header_counts_bytes() {
        assert_eq!(lengths(&header(Format::CHIP, Length::Frames(0))), [36, 0]);
        assert_eq!(lengths(&header(Format::CHIP, Length::Frames(10))), [76, 40]);
        assert_eq!(lengths(&header(MONO, Length::Frames(10))), [56, 20]);
        assert_eq!(lengths(&header(Format::CHIP, Length::Unknown)), [u32::MAX; 2]);
    }

    #[test]
    fn a_header_tells_the_format() {
        let fields = |format| header(format, Length::Frames(0))[20..36].to_vec();
        assert_eq!(fields(Format::CHIP), [1, 0, 2, 0, 0x44, 0xAC, 0, 0, 0x10, 0xB1, 2, 0, 4, 0, 16, 0]);
        assert_eq!(fields(MONO), [1, 0, 1, 0, 0xD4, 0x49, 0, 0, 0xA8, 0x93, 0, 0, 2, 0, 16, 0]);
    }

    #[test]
    fn the_longest_sound_fits_in_its_header() {
        for (format, frame_bytes) in [(Format::CHIP, 4), (MONO, 2)] {
            let frames = format.most_frames();
            let [riff_bytes, data_bytes] = lengths(&header(format, Length::Frames(frames)));
            assert_eq!(u64::from(data_bytes), frames * frame_bytes);
            assert_eq!(u64::from(riff_bytes), frames * frame_bytes + 36);
            assert!((frames + 1) * frame_bytes + 36 > u64::from(u32::MAX));
        }
        assert_eq!(Format::CHIP.longest(), "6 hours and 45 minutes");
        assert_eq!(MONO.longest(), "31 hours and 33 minutes");
    }

    #[test]
    fn a_format_has_words() {
        assert_eq!(Format::CHIP.to_string(), "stereo, 44100 Hz");
        assert_eq!(MONO.to_string(), "mono, 18900 Hz");
    }

    #[test]
    fn a_wav_file_is_known_by_its_first_bytes() {
        assert!(is_wav(&header(Format::CHIP, Length::Unknown)));
        for other in [&b""[..], b"RIFF", b"RIFF....WAV", b"RIFF....AVI ", b"w 180 3FFF\nt 1", b"RF64....WAVE"] {
            assert!(!is_wav(other));
        }
    }
}
