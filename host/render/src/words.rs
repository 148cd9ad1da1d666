//! File names, errors, times and counts as messages show them.

use std::io;
use std::path::Path;

/// A file's name, with `?` for each control character, which would break the line.
pub fn name(path: &Path) -> String {
    path.to_string_lossy().chars().map(|c| if c.is_control() { '?' } else { c }).collect()
}

/// The system's words for an error, without its number.
pub fn error(error: &io::Error) -> String {
    let words = error.to_string();
    match words.find(" (os error ") {
        Some(end) => words[..end].to_owned(),
        None => words,
    }
}

/// The time at which a tick begins, in seconds, of so many ticks a second.
pub fn seconds(tick: u64, rate: u32) -> String {
    format!("{:.3} s", tick as f64 / f64::from(rate))
}

/// A number with the word for one or for many.
pub fn counted(number: u64, one: &str, many: &str) -> String {
    format!("{number} {}", if number == 1 { one } else { many })
}

#[cfg(test)]
mod tests {
    use super::*;

    #[test]
    fn a_name_stays_on_its_line() {
        assert_eq!(name(Path::new("a b/ü\n\x1b[1m.wav")), "a b/ü??[1m.wav");
    }

    #[test]
    fn an_error_is_told_without_its_number() {
        assert_eq!(error(&io::Error::from_raw_os_error(2)), "No such file or directory");
        assert_eq!(error(&io::Error::other("some words")), "some words");
    }

    #[test]
    fn times_have_milliseconds() {
        assert_eq!(seconds(0, 44_100), "0.000 s");
        assert_eq!(seconds(4410, 44_100), "0.100 s");
        assert_eq!(seconds(2016, 37_800), "0.053 s");
        assert_eq!(seconds(44_100 * 3600 * 24, 44_100), "86400.000 s");
    }
}
