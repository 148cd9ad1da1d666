//! A check of encoders: the blocks that an ADPCM encoder made, against the samples that it made them of.
//!
//! A block is [`BLOCK_BYTES`] for [`BLOCK_SAMPLES`]. The answer is [`Verdict::Yes`] exactly when
//!
//! - there are as many blocks as whole groups of 28 originals, and at least one
//! - each sample, decoded with two zero samples before the first, lies at most `largest` away from its original
//! - the last block, and no other, has the end flag (bit 0 of byte 1)
//! - no block's filter (bits 4-6 of byte 0) is 5, 6 or 7
//!
//! Otherwise the answer names the first block at fault and the rules that it breaks.
//!
//! ```
//! use tenonwhisk::encoder::{self, Verdict};
//!
//! let mut block = [0; encoder::BLOCK_BYTES];
//! block[0] = 0x0C; // filter 0 and shift 12: each sample is its 4 bits
//! block[1] = 0x01; // the end flag
//! block[2] = 0x53; // sample 0, in the low half, is 3, and sample 1 is 5
//! let mut originals = [0; encoder::BLOCK_SAMPLES];
//! (originals[0], originals[1]) = (3, 7);
//!
//! assert_eq!(encoder::check(&originals, &block, 2)?, Verdict::Yes);
//! match encoder::check(&originals, &block, 1)? {
//!     Verdict::No(fault) => assert_eq!((fault.block, fault.sample), (0, Some(1))),
//!     Verdict::Yes => panic!("5 is 2 away from 7"),
//! }
//! # Ok::<(), tenonwhisk::Refusal>(())
//! ```

use crate::{ffi, Refusal};

/// The length of a block, in bytes.
pub const BLOCK_BYTES: usize = 16;

/// The samples of a block.
pub const BLOCK_SAMPLES: usize = 28;

/// The answer of [`check`].
#[derive(Debug, Clone, Copy, PartialEq, Eq, Hash)]
#[must_use]
pub enum Verdict {
    /// The blocks break no rule.
    Yes,
    /// This block is the first at fault.
    No(Fault),
}

/// A block at fault, and which rules it breaks: at least one.
#[derive(Debug, Clone, Copy, PartialEq, Eq, Hash)]
#[non_exhaustive]
pub struct Fault {
    /// The block's number, from 0 on.
    pub block: usize,
    /// There is no such block, or there are no originals for it. Then the other rules are not looked at.
    pub unpaired: bool,
    /// The first of its samples, from 0 on, that is too far from its original.
    pub sample: Option<usize>,
    /// It has the end flag and is not the last block, or it is the last block and lacks the flag.
    pub end_flag: bool,
    /// Its filter is 5, 6 or 7.
    pub filter: bool,
}

/// Says whether the blocks decode to the originals, each sample at most `largest` away, and break no other rule.
///
/// "The last block" is the last one of `blocks`, however many originals there are. Where the counts differ, the first
/// block without a partner is at fault; blocks before it are looked at first.
///
/// It is refused if the originals are not whole groups of [`BLOCK_SAMPLES`], or the encoded bytes not whole blocks of
/// [`BLOCK_BYTES`] ([`Refusal::Encoder`]).
pub fn check(originals: &[i16], blocks: &[u8], largest: u16) -> Result<Verdict, Refusal> {
    let ffi::Verdict { number, yes, unpaired, end_flag, filter, block, sample } =
        ffi::encoder_check(originals, blocks, largest);
    let sample = (sample < BLOCK_SAMPLES).then_some(sample);
    let verdict = if yes { Verdict::Yes } else { Verdict::No(Fault { block, unpaired, sample, end_flag, filter }) };
    Refusal::check(number, verdict)
}
