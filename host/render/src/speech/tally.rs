//! How many sectors a run met, and the exit status for it.

use crate::wav::Format;
use crate::words;

const LEFT_OUT: u8 = 1;

#[derive(Default)]
pub struct Tally {
    pub decoded: u64,
    /// Sectors of the sound that could not be decoded: silence is in their place.
    pub left_out: u64,
    /// Sectors that hold no sound, or another.
    pub skipped: u64,
}

impl Tally {
    pub fn status(&self) -> u8 {
        if self.left_out > 0 {
            LEFT_OUT
        } else {
            0
        }
    }

    /// The last line of a run that gave so many frames.
    pub fn summary(&self, output: &str, format: Format, frames: u64) -> String {
        let seconds = words::seconds(frames, format.rate);
        let mut summary = format!("{output}: {seconds}, {format}, sectors decoded: {}", self.decoded);
        if self.left_out > 0 {
            summary += &format!(", left out as silence: {}", self.left_out);
        }
        if self.skipped > 0 {
            summary += &format!(", skipped: {}", self.skipped);
        }
        summary
    }
}

#[cfg(test)]
mod tests {
    use super::*;

    #[test]
    fn the_summary_tells_what_applies() {
        let format = Format { channels: 2, rate: 37_800 };
        let tally = Tally { decoded: 2, ..Tally::default() };
        assert_eq!(tally.summary("a.wav", format, 4032), "a.wav: 0.107 s, stereo, 37800 Hz, sectors decoded: 2");
        assert_eq!(tally.status(), 0);
        let tally = Tally { decoded: 1, left_out: 1, skipped: 14 };
        assert_eq!(
            tally.summary("a.wav", format, 4032),
            "a.wav: 0.107 s, stereo, 37800 Hz, sectors decoded: 1, left out as silence: 1, skipped: 14"
        );
        assert_eq!(tally.status(), 1);
        assert_eq!(Tally { skipped: 9, ..Tally::default() }.status(), 0);
    }
}
