//! What is wrong with a sector, in plain words. The core refuses a damaged sector; the words here say where it is damaged.

use tenonwhisk::xa::SECTOR_BYTES;
use tenonwhisk::Refusal;

use crate::speech::sector::Subheader;

const GROUP_BYTES: usize = 128;
const GROUPS: usize = SECTOR_BYTES / GROUP_BYTES;
/// The header bytes of a sound group that are not copies.
const HEADERS: std::ops::Range<usize> = 4..12;

/// Where the copy of a header byte stands.
fn copy_of(byte: usize) -> usize {
    byte ^ 4
}

/// The first header byte that differs from its copy, by sound group and byte. Expects [`SECTOR_BYTES`].
fn first_difference(groups: &[u8]) -> Option<(usize, usize)> {
    let all = (0..GROUPS).flat_map(|group| HEADERS.map(move |byte| (group, byte)));
    all.into_iter().find(|&(group, byte)| {
        let group = &groups[group * GROUP_BYTES..];
        group[byte] != group[copy_of(byte)]
    })
}

/// Whether every header byte equals its copy.
pub fn has_good_copies(groups: &[u8]) -> bool {
    first_difference(groups).is_none()
}

/// Why the core refuses these sound groups.
pub fn of_refused(refusal: Refusal, groups: &[u8]) -> String {
    match first_difference(groups) {
        Some((group, byte)) if refusal == Refusal::XaCopies => {
            let at = |byte| groups[group * GROUP_BYTES + byte];
            let copy = copy_of(byte);
            format!(
                "byte {byte} of sound group {group} is {:02X}h, but its copy, byte {copy}, is {:02X}h",
                at(byte),
                at(copy)
            )
        }
        _ => refusal.to_string(),
    }
}

/// Why a subheader and its copy do not say how the sound is coded.
pub fn of_subheaders(subheader: Subheader, copy: Subheader) -> String {
    if subheader != copy {
        return format!("its subheader is {subheader}, but the copy of it is {copy}");
    }
    format!("its coding information is {:02X}h, which is reserved", subheader.coding_byte)
}

/// What is wrong with a sector that has so many of its bytes.
pub fn of_cut(found: usize, whole: usize) -> String {
    format!("it ends after {found} of {whole} bytes")
}

#[cfg(test)]
mod tests {
    use super::*;
    use tenonwhisk::xa::{Bits, Channels, Histories, SAMPLES};

    #[test]
    fn the_first_difference_is_told() {
        let mut groups = [0x0C; SECTOR_BYTES];
        assert!(has_good_copies(&groups));
        groups[17 * 128 + 15] = 0x1C;
        assert_eq!(
            of_refused(Refusal::XaCopies, &groups),
            "byte 11 of sound group 17 is 0Ch, but its copy, byte 15, is 1Ch"
        );
        groups[5 * 128 + 2] = 0x00;
        groups[5 * 128 + 8] = 0x01;
        assert_eq!(
            of_refused(Refusal::XaCopies, &groups),
            "byte 6 of sound group 5 is 0Ch, but its copy, byte 2, is 00h"
        );
        assert_eq!(of_refused(Refusal::XaEightBit, &groups), Refusal::XaEightBit.to_string());
    }

    /// The words and the core agree on what is damaged.
    #[test]
    fn copies_are_good_where_the_core_decodes() {
        let mut groups = [0; SECTOR_BYTES];
        for at in 0..SECTOR_BYTES {
            groups[at] = 1;
            let decoded = Histories::new().decode(&groups, Channels::Mono, Bits::Four, &mut [0; SAMPLES]);
            assert_eq!(has_good_copies(&groups), decoded.is_ok(), "byte {at}");
            groups[at] = 0;
        }
    }
}
