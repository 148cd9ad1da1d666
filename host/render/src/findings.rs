//! What a run found wrong, and the exit status for it.

use crate::wav::RATE;
use crate::words;

const IN_DOUBT: u8 = 1;
const LINES_REPORTED: u8 = 2;
pub const FAILED: u8 = 4;

#[derive(Default)]
pub struct Findings {
    /// How many lines were bad or refused.
    pub lines: u64,
    /// The first tick from which the sound may rest on memory that nobody loaded.
    pub doubt: Option<u64>,
}

impl Findings {
    pub fn status(&self) -> u8 {
        let doubt = if self.doubt.is_some() { IN_DOUBT } else { 0 };
        let lines = if self.lines > 0 { LINES_REPORTED } else { 0 };
        doubt + lines
    }

    /// The last line of a run that gave so many pairs.
    pub fn summary(&self, output: &str, pairs: u64) -> String {
        let mut summary = format!("{output}: {}", words::seconds(pairs, RATE));
        if self.lines > 0 {
            summary += &format!(", lines bad or refused: {}", self.lines);
        }
        if let Some(tick) = self.doubt {
            summary += &format!(", in doubt from {} on", words::seconds(tick, RATE));
        }
        summary
    }
}

#[cfg(test)]
mod tests {
    use super::*;

    #[test]
    fn the_status_is_a_sum() {
        assert_eq!(Findings::default().status(), 0);
        assert_eq!(Findings { lines: 0, doubt: Some(0) }.status(), 1);
        assert_eq!(Findings { lines: 9, doubt: None }.status(), 2);
        assert_eq!(Findings { lines: 1, doubt: Some(7) }.status(), 3);
    }

    #[test]
    fn the_summary_tells_what_applies() {
        assert_eq!(Findings::default().summary("a.wav", 132_300), "a.wav: 3.000 s");
        assert_eq!(
            Findings { lines: 2, doubt: Some(4410) }.summary("a.wav", 132_300),
            "a.wav: 3.000 s, lines bad or refused: 2, in doubt from 0.100 s on"
        );
    }
}
