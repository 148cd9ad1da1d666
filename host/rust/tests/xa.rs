//! XA speech, which needs neither `std` nor an allocator.

use tenonwhisk::xa::{self, Bits, Channels, Histories, History};
use tenonwhisk::Refusal;

const GROUPS: usize = 18;
const GROUP_BYTES: usize = 128;

/// Twelve sectors, mono and stereo mixed.
const SECTORS: &[u8] = include_bytes!("../../../crates/xa_sectors/data/xa.xa");
/// What an outside decoder gives for them: a line `mono` or `stereo` for each sector, and a line for each sound group.
/// More follows.
const DECODED: &str = include_str!("../../../crates/xa_sectors/stdout");

/// Histories of six different values.
const SOME: Histories = Histories {
    left: History { old: 1, older: -2 },
    right: History { old: 300, older: -400 },
    mono: History { old: i16::MAX, older: i16::MIN },
};

/// A sector of zeros, with a header byte for all units.
fn silent(header: u8) -> [u8; xa::SECTOR_BYTES] {
    let mut sector = [0; xa::SECTOR_BYTES];
    for group in sector.chunks_mut(GROUP_BYTES) {
        group[..16].fill(header);
    }
    sector
}

/// Puts the 4 bits of a sample.
fn put(sector: &mut [u8], group: usize, unit: usize, sample: usize, bits: u8) {
    sector[GROUP_BYTES * group + 16 + 4 * sample + unit / 2] |= bits << (4 * (unit % 2));
}

fn decoded(histories: &mut Histories, sector: &[u8], channels: Channels) -> [i16; xa::SAMPLES] {
    let mut out = [0x5A5A; xa::SAMPLES];
    assert_eq!(histories.decode(sector, channels, Bits::Four, &mut out), Ok(()));
    out
}

#[test]
fn mono_and_stereo_sectors_are_decoded_as_an_outside_decoder_does() {
    let mut lines = DECODED.lines();
    let mut histories = Histories::new();
    for (n, sector) in SECTORS.chunks(xa::SECTOR_BYTES).enumerate() {
        let channels = match lines.next() {
            Some("mono") => Channels::Mono,
            Some("stereo") => Channels::Stereo,
            other => panic!("sector {n} is {other:?}"),
        };
        let groups = lines.by_ref().take(GROUPS).flat_map(str::split_whitespace);
        let expected: Vec<i16> = groups.map(|sample| sample.parse().unwrap()).collect();
        assert_eq!(decoded(&mut histories, sector, channels)[..], expected, "sector {n}");
    }
    assert_eq!(SECTORS.len(), 12 * xa::SECTOR_BYTES);
}

#[test]
fn fresh_histories_are_zero() {
    let zero = History { old: 0, older: 0 };
    assert_eq!(Histories::new(), Histories { left: zero, right: zero, mono: zero });
    assert_eq!(Histories::default(), Histories::new());
    assert_eq!(History::default(), zero);
}

#[test]
fn each_sample_has_its_place() {
    for (group, unit, sample) in [(0, 0, 0), (0, 1, 0), (0, 6, 27), (5, 3, 11), (17, 7, 27)] {
        let mut sector = silent(0x00);
        put(&mut sector, group, unit, sample, 0x9);
        for (channels, place) in [
            (Channels::Mono, 224 * group + 28 * unit + sample),
            (Channels::Stereo, 224 * group + 56 * (unit / 2) + 2 * sample + unit % 2),
        ] {
            let mut expected = [0; xa::SAMPLES];
            expected[place] = -0x7000;
            assert!(decoded(&mut Histories::new(), &sector, channels) == expected, "{group} {unit} {sample}");
        }
    }
}

#[test]
fn histories_are_the_last_two_samples() {
    let mut sector = silent(0x0C);
    for (unit, bits) in [(6, 1), (7, 2)] {
        put(&mut sector, 17, unit, 26, bits);
        put(&mut sector, 17, unit, 27, bits + 2);
    }
    let mut histories = SOME;
    decoded(&mut histories, &sector, Channels::Mono);
    assert_eq!(histories, Histories { mono: History { old: 4, older: 2 }, ..SOME });
    decoded(&mut histories, &sector, Channels::Stereo);
    assert_eq!((histories.left, histories.right), (History { old: 3, older: 1 }, History { old: 4, older: 2 }));
    assert_eq!(histories.mono, History { old: 4, older: 2 });
}

#[test]
fn a_sector_goes_on_from_the_one_before() {
    let sector = silent(0x10); // filter 1: 60/64 of the sample before
    let mut histories = Histories::new();
    histories.left.old = 6400;
    let out = decoded(&mut histories, &sector, Channels::Stereo);
    assert_eq!(out[..6], [6000, 0, 5625, 0, 5273, 0]);
    histories.left = History { old: -6400, older: 0 };
    assert_eq!(decoded(&mut histories, &sector, Channels::Stereo)[..6], [-6000, 0, -5625, 0, -5273, 0]);
    assert_eq!(decoded(&mut histories, &sector, Channels::Mono), [0; xa::SAMPLES]);
}

#[test]
fn a_refused_sector_changes_nothing() {
    let good = silent(0x2C);
    let mut damaged = good;
    damaged[17 * GROUP_BYTES + 15] ^= 0x80;
    let refused = |sector: &[u8], bits, room: usize, refusal| {
        for channels in [Channels::Mono, Channels::Stereo] {
            let mut histories = SOME;
            let mut out = [0x5A5A; xa::SAMPLES + 1];
            assert_eq!(histories.decode(sector, channels, bits, &mut out[..room]), Err(refusal));
            assert!(histories == SOME && out == [0x5A5A; xa::SAMPLES + 1]);
        }
    };
    refused(&damaged, Bits::Four, xa::SAMPLES, Refusal::XaCopies);
    refused(&damaged, Bits::Eight, xa::SAMPLES, Refusal::XaEightBit);
    refused(&good, Bits::Eight, xa::SAMPLES, Refusal::XaEightBit);
    for room in [0, xa::SAMPLES - 1, xa::SAMPLES + 1] {
        refused(&good, Bits::Four, room, Refusal::XaLength);
        refused(&damaged, Bits::Eight, room, Refusal::XaLength);
    }
    for sector in [&[][..], &good[1..], &[&good[..], &[0]].concat()] {
        refused(sector, Bits::Four, xa::SAMPLES, Refusal::XaLength);
        refused(sector, Bits::Eight, xa::SAMPLES, Refusal::XaLength);
    }
}

#[test]
fn every_header_byte_is_compared_with_its_copy() {
    let good = silent(0x0C);
    let mut out = [0; xa::SAMPLES];
    for group in 0..GROUPS {
        for byte in 0..16 {
            let mut sector = good;
            sector[GROUP_BYTES * group + byte] ^= 0x40;
            let refused = Histories::new().decode(&sector, Channels::Mono, Bits::Four, &mut out);
            assert_eq!(refused, Err(Refusal::XaCopies), "group {group}, byte {byte}");
            sector[GROUP_BYTES * group + (byte ^ 4)] ^= 0x40;
            decoded(&mut Histories::new(), &sector, Channels::Mono); // bit 6 of a header byte says nothing
        }
    }
}
