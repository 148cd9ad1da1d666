//! Finds out what the sectors of a file are: by its length and, if that fits more than one kind, by its content.

use std::fs::File;
use std::io::{self, Read, Seek};

use crate::failure::Failure;
use crate::speech::faults;
use crate::speech::sector::{Kind, Sectors};

/// Expects a regular file. Where it stands afterwards is not said.
pub fn find(name: &str, mut file: &File) -> Result<Kind, Failure> {
    let unreadable = |error| Failure::reading(name, &error);
    let length = file.metadata().map_err(unreadable)?.len();
    let fitting = fitting(length);
    match fitting[..] {
        _ if length == 0 => Err(Failure::new(format!("{name} is empty"))),
        [] if begins_with_riff(file).map_err(unreadable)? => Err(with_riff(name)),
        [] => Err(unfit(name, length)),
        [kind] => Ok(kind),
        _ => {
            let mut likenesses = Vec::new();
            for &kind in &fitting {
                file.rewind().map_err(unreadable)?;
                likenesses.push((likeness(file, kind).map_err(unreadable)?, kind));
            }
            most_alike(&likenesses).ok_or_else(|| undecided(name, length, &fitting))
        }
    }
}

/// The kinds of which a file of this length has whole sectors.
fn fitting(length: u64) -> Vec<Kind> {
    Kind::ALL.into_iter().filter(|kind| length % kind.bytes() as u64 == 0).collect()
}

/// How much the content of a file is like sectors of a kind.
#[derive(Debug, Clone, Copy, PartialEq, Eq, PartialOrd, Ord)]
enum Likeness {
    No,
    /// Silence is like sectors of more than one kind.
    Yes,
    /// All sectors have what no other sectors have.
    Sure,
}

fn likeness(input: impl Read, kind: Kind) -> io::Result<Likeness> {
    let (mut all_sound, mut any_sound) = (true, false);
    for sector in Sectors::new(input, kind) {
        let sector = sector?;
        let is_like = match kind {
            Kind::Of2304 => sector.groups().is_ok_and(faults::has_good_copies),
            Kind::Of2336 => sector.subheaders().is_some_and(|[subheader, copy]| subheader == copy),
            Kind::Of2352 => sector.has_sync(),
        };
        if !is_like {
            return Ok(Likeness::No);
        }
        let is_sound = sector.sound_subheader().is_some();
        (all_sound, any_sound) = (all_sound && is_sound, any_sound || is_sound);
    }
    Ok(match kind {
        Kind::Of2304 => Likeness::Yes,
        Kind::Of2336 if all_sound => Likeness::Sure,
        Kind::Of2336 if any_sound => Likeness::Yes,
        Kind::Of2336 => Likeness::No,
        Kind::Of2352 => Likeness::Sure,
    })
}

/// The kind that the content is like, and more so than any other.
fn most_alike(likenesses: &[(Likeness, Kind)]) -> Option<Kind> {
    let &(most, kind) = likenesses.iter().max_by_key(|(likeness, _)| likeness)?;
    let is_only = likenesses.iter().filter(|&&(likeness, _)| likeness == most).count() == 1;
    (is_only && most > Likeness::No).then_some(kind)
}

/// Some systems put a header before the sectors when they copy a file from a disc.
fn begins_with_riff(file: &File) -> io::Result<bool> {
    let mut beginning = Vec::new();
    file.take(12).read_to_end(&mut beginning)?;
    Ok(beginning.len() == 12 && beginning.starts_with(b"RIFF") && beginning.ends_with(b"CDXA"))
}

fn with_riff(name: &str) -> Failure {
    Failure::new(format!(
        "{name} has a RIFF header of 44 bytes before its sectors; leave it out: \
         tail -c +45 FILE | xa --sector 2352 - OUT"
    ))
}

fn unfit(name: &str, length: u64) -> Failure {
    Failure::new(format!(
        "{name} has {length} bytes, which are not whole sectors of 2304, 2336 or 2352 bytes; \
         with --sector N, xa decodes the sectors that are whole"
    ))
}

fn undecided(name: &str, length: u64, fitting: &[Kind]) -> Failure {
    let kinds: Vec<_> = fitting.iter().map(|kind| format!("of {}", kind.bytes())).collect();
    Failure::new(format!(
        "{name} has {length} bytes, which are whole sectors {} bytes, and its content does not tell which; \
         say it with --sector N",
        kinds.join(" and ")
    ))
}

#[cfg(test)]
mod tests {
    use super::*;

    #[test]
    fn most_lengths_fit_one_kind() {
        for kind in Kind::ALL {
            assert_eq!(fitting(kind.bytes() as u64), [kind]);
            assert_eq!(fitting(71 * kind.bytes() as u64).first(), Some(&kind));
        }
        assert_eq!(fitting(2303), []);
        assert_eq!(fitting(49 * 2304), [Kind::Of2304, Kind::Of2352]);
        assert_eq!(fitting(73 * 2304), [Kind::Of2304, Kind::Of2336]);
        assert_eq!(fitting(147 * 2336), [Kind::Of2336, Kind::Of2352]);
        assert_eq!(fitting(49 * 73 * 2304), Kind::ALL);
    }

    /// What a file is taken for whose length fits all kinds.
    fn taken_for(bytes: &[u8]) -> Option<Kind> {
        assert_eq!(fitting(bytes.len() as u64), Kind::ALL);
        most_alike(&Kind::ALL.map(|kind| (likeness(bytes, kind).unwrap(), kind)))
    }

    /// Bytes without a pattern, as many as fit all kinds.
    fn noise() -> Vec<u8> {
        let mut seed = 1u32;
        let mut byte = || {
            seed = seed.wrapping_mul(1_664_525).wrapping_add(1_013_904_223);
            (seed >> 24) as u8
        };
        (0..49 * 73 * 2304).map(|_| byte()).collect()
    }

    /// Puts bytes at the beginning of every piece of a length, in turn.
    fn put<const N: usize>(mut file: Vec<u8>, every: usize, bytes: &[[u8; N]]) -> Vec<u8> {
        for (piece, bytes) in file.chunks_mut(every).zip(bytes.iter().cycle()) {
            piece[..N].copy_from_slice(bytes);
        }
        file
    }

    const SYNC: [u8; 12] = [0, 255, 255, 255, 255, 255, 255, 255, 255, 255, 255, 0];
    const SOUND: [u8; 8] = [1, 0, 0x64, 1, 1, 0, 0x64, 1];
    const VIDEO: [u8; 8] = [1, 0, 0x48, 0, 1, 0, 0x48, 0];
    const TORN: [u8; 8] = [1, 0, 0x64, 1, 1, 0, 0x64, 0];

    #[test]
    fn the_content_tells_the_kind() {
        assert_eq!(taken_for(&put(noise(), 2352, &[SYNC])), Some(Kind::Of2352));
        assert_eq!(taken_for(&put(noise(), 2336, &[SOUND])), Some(Kind::Of2336));
        assert_eq!(taken_for(&put(noise(), 2336, &[VIDEO, VIDEO, SOUND])), Some(Kind::Of2336));
        assert_eq!(taken_for(&put(noise(), 128, &[[0x0C; 16]])), Some(Kind::Of2304));
    }

    #[test]
    fn silence_tells_it_too() {
        let silence = || vec![0; 49 * 73 * 2304];
        assert_eq!(taken_for(&put(silence(), 2352, &[SYNC])), Some(Kind::Of2352));
        assert_eq!(taken_for(&put(silence(), 2336, &[SOUND])), Some(Kind::Of2336));
        assert_eq!(taken_for(&silence()), Some(Kind::Of2304));
        assert_eq!(taken_for(&put(silence(), 128, &[[0x0C; 16]])), None); // its header bytes may be subheaders
    }

    #[test]
    fn other_content_tells_nothing() {
        assert_eq!(taken_for(&noise()), None);
        assert_eq!(taken_for(&put(noise(), 2352, &[SYNC, [0; 12]])), None);
        assert_eq!(taken_for(&put(noise(), 2336, &[SOUND, TORN])), None);
        assert_eq!(taken_for(&put(noise(), 2336, &[VIDEO])), None);
        assert_eq!(taken_for(&put(noise(), 128, &[[0x0C; 15]])), None);
    }
}
