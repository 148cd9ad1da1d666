//! The CD input: a WAV file that is played once, and silence after it.

use std::fs::File;
use std::io::{self, BufReader, Read};

use crate::failure::Failure;
use crate::source::Source;
use crate::wav::{PAIR_BYTES, RATE};
use crate::wav_in::{self, Extent, Wanted};
use crate::words;

pub struct Cd {
    name: String,
    sound: Sound<BufReader<File>>,
}

impl Cd {
    pub fn open(source: Source) -> Result<Cd, Failure> {
        let name = source.name.clone();
        let file = source.open()?;
        let mut input = BufReader::new(file);
        match wav_in::find_sound(&mut input, Wanted::CD) {
            Ok(found) => Ok(Cd { name, sound: Sound { input, extent: found.extent, pairs: 0, bytes: Vec::new() } }),
            Err(unfit) => Err(unfit.into_failure(&name)),
        }
    }

    /// Fills the samples with the next pairs: left, right, left, .. It may return a note for the user.
    pub fn play(&mut self, samples: &mut [i16]) -> Result<Option<String>, Failure> {
        match self.sound.play(samples) {
            Ok(false) => Ok(None),
            Ok(true) => Ok(Some(format!(
                "{} is shorter than its header says: its sound ends at {}, and silence follows",
                self.name,
                words::seconds(self.sound.pairs, RATE)
            ))),
            Err(error) => Err(Failure::reading(&self.name, &error)),
        }
    }
}

struct Sound<R> {
    input: R,
    /// What is left to play.
    extent: Extent,
    /// Pairs that were played.
    pairs: u64,
    bytes: Vec<u8>,
}

impl<R: Read> Sound<R> {
    /// Returns whether the file has just ended too early.
    fn play(&mut self, samples: &mut [i16]) -> io::Result<bool> {
        let asked = match self.extent {
            Extent::Bytes(left) => left.min(2 * samples.len() as u64),
            Extent::ToTheEnd => 2 * samples.len() as u64,
        };
        self.bytes.clear();
        let found = self.input.by_ref().take(asked).read_to_end(&mut self.bytes)? as u64;
        let ended_early = found < asked && self.extent != Extent::ToTheEnd;
        self.extent = match self.extent {
            _ if found < asked => Extent::Bytes(0),
            Extent::Bytes(left) => Extent::Bytes(left - found),
            Extent::ToTheEnd => Extent::ToTheEnd,
        };
        self.pairs += found / u64::from(PAIR_BYTES);
        convert(&self.bytes, samples);
        Ok(ended_early)
    }
}

/// Whole pairs; a piece of one is no sound.
fn convert(bytes: &[u8], samples: &mut [i16]) {
    let pairs = bytes.chunks_exact(PAIR_BYTES as usize).flat_map(|pair| pair.chunks_exact(2));
    let values = pairs.map(|sample| i16::from_le_bytes([sample[0], sample[1]]));
    for (sample, value) in samples.iter_mut().zip(values.chain(std::iter::repeat(0))) {
        *sample = value;
    }
}

#[cfg(test)]
mod tests {
    use super::*;

    fn sound(extent: Extent, bytes: &[u8]) -> Sound<&[u8]> {
        Sound { input: bytes, extent, pairs: 0, bytes: Vec::new() }
    }

    fn played(sound: &mut Sound<&[u8]>) -> ([i16; 4], bool) {
        let mut samples = [-1; 4];
        let ended_early = sound.play(&mut samples).unwrap();
        (samples, ended_early)
    }

    const BYTES: [u8; 12] = [1, 0, 2, 0, 0xFF, 0xFF, 0, 0x80, 5, 0, 6, 0];

    #[test]
    fn silence_follows_the_end() {
        for extent in [Extent::Bytes(12), Extent::ToTheEnd] {
            let mut sound = sound(extent, &BYTES);
            assert_eq!(played(&mut sound), ([1, 2, -1, -32768], false));
            assert_eq!(played(&mut sound), ([5, 6, 0, 0], false));
            assert_eq!(played(&mut sound), ([0; 4], false));
            assert_eq!(sound.pairs, 3);
        }
    }

    #[test]
    fn what_follows_the_sound_is_not_played() {
        let mut sound = sound(Extent::Bytes(4), &BYTES);
        assert_eq!(played(&mut sound), ([1, 2, 0, 0], false));
        assert_eq!(played(&mut sound), ([0; 4], false));
    }

    #[test]
    fn an_early_end_is_told_once() {
        let mut sound = sound(Extent::Bytes(100), &BYTES[..10]);
        assert_eq!(played(&mut sound), ([1, 2, -1, -32768], false));
        assert_eq!(played(&mut sound), ([0; 4], true));
        assert_eq!(played(&mut sound), ([0; 4], false));
        assert_eq!(sound.pairs, 2);
    }

    #[test]
    fn a_piece_of_a_pair_is_no_sound() {
        assert_eq!(played(&mut sound(Extent::Bytes(6), &BYTES)), ([1, 2, 0, 0], false));
        assert_eq!(played(&mut sound(Extent::ToTheEnd, &BYTES[..7])), ([1, 2, 0, 0], false));
    }
}
