//! XA speech: the sectors of CD-ROM XA ADPCM that dialogue comes in.
//!
//! A sector is 18 sound groups of 128 bytes, each with eight units of 28 samples of 4 bits. In a mono sector the units
//! follow each other; in a stereo sector the even ones are left, the odd ones right. What stands around these
//! [`SECTOR_BYTES`] on a disc (sync, subheader, checksums) is the host's. So is the rate, 37,800 or 18,900 Hz: nothing is
//! resampled.
//!
//! A sample rests on the two before it, so a host keeps the [`Histories`] of each stream from sector to sector.
//!
//! ```
//! use tenonwhisk::xa::{self, Bits, Channels, Histories};
//! use tenonwhisk::Refusal;
//!
//! let mut sector = [0; xa::SECTOR_BYTES];
//! sector[16] = 0x07; // the first samples of unit 0, in the low half, and of unit 1
//! let mut speech = Histories::new();
//! let mut out = [0; xa::SAMPLES];
//! speech.decode(&sector, Channels::Mono, Bits::Four, &mut out)?;
//! assert_eq!(out[..3], [0x7000, 0, 0]);
//!
//! sector[4] = 0x10; // unit 0 has filter 1, but byte 0, the copy of this one, says filter 0
//! assert_eq!(speech.decode(&sector, Channels::Mono, Bits::Four, &mut out), Err(Refusal::XaCopies));
//! # Ok::<(), Refusal>(())
//! ```

use crate::{ffi, Refusal};

/// The length of a sector, in bytes.
pub const SECTOR_BYTES: usize = 2304;

/// The samples of a sector, mono or stereo (then 2,016 pairs).
pub const SAMPLES: usize = 4032;

/// What the units of a sector are.
#[derive(Debug, Clone, Copy, PartialEq, Eq, Hash)]
pub enum Channels {
    /// One channel: the units follow each other.
    Mono,
    /// Two channels: even units are left, odd units right.
    Stereo,
}

/// How many bits a sample has.
#[derive(Debug, Clone, Copy, PartialEq, Eq, Hash)]
pub enum Bits {
    /// Four, as in all speech that is decoded.
    Four,
    /// Eight: refused ([`Refusal::XaEightBit`]).
    Eight,
}

/// The last two samples of a channel. Any values are good.
#[derive(Debug, Clone, Copy, Default, PartialEq, Eq, Hash)]
#[repr(C)]
pub struct History {
    /// The last sample.
    pub old: i16,
    /// The one before it.
    pub older: i16,
}

/// The histories of a stream: all that one sector hands on to the next.
#[derive(Debug, Clone, Copy, PartialEq, Eq, Hash)]
#[repr(C)]
pub struct Histories {
    /// Of the left channel, which mono sectors leave as it is.
    pub left: History,
    /// Of the right channel, which mono sectors leave as it is.
    pub right: History,
    /// Of mono sectors; stereo sectors leave it as it is.
    pub mono: History,
}

impl Histories {
    /// The histories before the first sector of a stream: all zero.
    pub fn new() -> Histories {
        ffi::xa_fresh()
    }

    /// Decodes the stream's next sector into `out`, in the order in which it is heard; stereo samples are left, right,
    /// left, ..
    ///
    /// It is refused if `sector` is not [`SECTOR_BYTES`] or `out` not [`SAMPLES`] long ([`Refusal::XaLength`]), if the
    /// samples have 8 bits ([`Refusal::XaEightBit`]), or if in any sound group bytes 0 to 3 differ from bytes 4 to 7,
    /// or bytes 12 to 15 from bytes 8 to 11 ([`Refusal::XaCopies`]). Then the histories and `out` stay as they were.
    pub fn decode(&mut self, sector: &[u8], channels: Channels, bits: Bits, out: &mut [i16]) -> Result<(), Refusal> {
        let (stereo, eight_bit) = (channels == Channels::Stereo, bits == Bits::Eight);
        let ffi::Decoded { number, histories } = ffi::xa_decode(sector, stereo, eight_bit, *self, out);
        *self = Refusal::check(number, histories)?;
        Ok(())
    }
}

impl Default for Histories {
    fn default() -> Histories {
        Histories::new()
    }
}
