//! XA sectors for tests, and what is heard of them.

use std::fs;
use std::path::Path;

use tenonwhisk::xa::{Bits, Channels, Histories, SAMPLES, SECTOR_BYTES};

/// Subheaders of file 1, channel 0.
pub const STEREO: [u8; 4] = [1, 0, 0x64, 0x01];
pub const MONO: [u8; 4] = [1, 0, 0x64, 0x00];
pub const VIDEO: [u8; 4] = [1, 0, 0x48, 0x00];

/// The bytes of sectors, by kind.
pub const KINDS: [usize; 3] = [2304, 2336, 2352];

/// The outside vectors that are `mono` or `stereo`: the sound groups of each sector, and the samples of all, decoded by
/// an outside decoder that keeps a history for each.
pub fn vectors(channels: &str) -> (Vec<Vec<u8>>, Vec<i16>) {
    let folder = Path::new(env!("CARGO_MANIFEST_DIR")).join("../../crates/xa_sectors");
    let sectors = fs::read(folder.join("data/xa.xa")).unwrap();
    let decoded = fs::read_to_string(folder.join("stdout")).unwrap();
    let mut lines = decoded.lines();
    let (mut groups, mut samples) = (Vec::new(), Vec::new());
    for sector in sectors.chunks(SECTOR_BYTES) {
        let is_wanted = lines.next() == Some(channels);
        let decoded =
            lines.by_ref().take(18).flat_map(str::split_whitespace).map(|sample| sample.parse::<i16>().unwrap());
        let decoded: Vec<_> = decoded.collect();
        if is_wanted {
            groups.push(sector.to_vec());
            samples.extend(decoded);
        }
    }
    assert_eq!((groups.len(), samples.len()), (6, 6 * SAMPLES));
    (groups, samples)
}

/// A sector of 2,304, 2,336 or 2,352 bytes. The smallest has no subheader.
pub fn sector(bytes: usize, subheader: [u8; 4], groups: &[u8]) -> Vec<u8> {
    let sync = [0, 255, 255, 255, 255, 255, 255, 255, 255, 255, 255, 0];
    let header = [0x12, 0x34, 0x56, 2];
    let with_subheader = [&subheader, &subheader, groups, &[0xEE; 24]].concat();
    match bytes {
        2304 => groups.to_vec(),
        2336 => with_subheader,
        2352 => [&sync[..], &header, &with_subheader].concat(),
        _ => panic!("no sector has {bytes} bytes"),
    }
}

/// Sectors that have the same subheader.
pub fn sectors(bytes: usize, subheader: [u8; 4], groups: &[Vec<u8>]) -> Vec<u8> {
    groups.iter().flat_map(|groups| sector(bytes, subheader, groups)).collect()
}

/// Damages byte 6 of a sound group. Byte 2 is its copy.
pub fn damage(groups: &mut [u8], group: usize) {
    groups[128 * group + 6] ^= 0x10;
}

/// What is heard of sectors, one after the other.
pub fn heard(channels: Channels, groups: &[Vec<u8>]) -> Vec<i16> {
    let mut histories = Histories::new();
    let mut heard = Vec::new();
    for groups in groups {
        let mut samples = [0; SAMPLES];
        histories.decode(groups, channels, Bits::Four, &mut samples).unwrap();
        heard.extend(samples);
    }
    heard
}
