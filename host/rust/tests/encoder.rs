//! The check of encoders, which needs neither `std` nor an allocator.

use tenonwhisk::encoder::{self, Fault, Verdict, BLOCK_BYTES, BLOCK_SAMPLES};
use tenonwhisk::Refusal;

const END: u8 = 1;

/// Shift 12 and filter 0: each sample is its 4 bits.
const PLAIN: u8 = 0x0C;

/// A block of zeros with its header.
fn silent(header: u8, flags: u8) -> [u8; BLOCK_BYTES] {
    let mut block = [0; BLOCK_BYTES];
    (block[0], block[1]) = (header, flags);
    block
}

/// Blocks of silence, the last of which has the end flag.
fn silence(blocks: usize) -> Vec<u8> {
    let mut bytes = silent(PLAIN, 0).repeat(blocks);
    if let Some(last) = blocks.checked_sub(1) {
        bytes[BLOCK_BYTES * last + 1] = END;
    }
    bytes
}

/// Puts the 4 bits of a sample in the place of zeros.
fn put(blocks: &mut [u8], sample: usize, bits: u8) {
    let (block, within) = (sample / BLOCK_SAMPLES, sample % BLOCK_SAMPLES);
    blocks[BLOCK_BYTES * block + 2 + within / 2] |= bits << (4 * (within % 2));
}

#[track_caller]
fn is_yes(originals: &[i16], blocks: &[u8], largest: u16) {
    assert_eq!(encoder::check(originals, blocks, largest), Ok(Verdict::Yes));
}

#[track_caller]
fn fault(originals: &[i16], blocks: &[u8], largest: u16) -> Fault {
    match encoder::check(originals, blocks, largest) {
        Ok(Verdict::No(fault)) => fault,
        other => panic!("{other:?}"),
    }
}

/// The block, the sample, and whether the end flag and the filter are wrong.
#[track_caller]
fn broken(originals: &[i16], blocks: &[u8], largest: u16) -> (usize, Option<usize>, bool, bool) {
    let fault = fault(originals, blocks, largest);
    assert!(!fault.unpaired);
    (fault.block, fault.sample, fault.end_flag, fault.filter)
}

/// The number of the block without a partner.
#[track_caller]
fn unpaired(originals: &[i16], blocks: &[u8]) -> usize {
    let fault = fault(originals, blocks, 0);
    assert!(fault.unpaired);
    assert_eq!((fault.sample, fault.end_flag, fault.filter), (None, false, false));
    fault.block
}

#[test]
fn silence_is_encoded_well() {
    for blocks in 1..5 {
        is_yes(&vec![0; BLOCK_SAMPLES * blocks], &silence(blocks), 0);
    }
}

#[test]
fn each_sample_may_be_so_far_off_and_no_farther() {
    for sample in 0..3 * BLOCK_SAMPLES {
        for (bits, value) in [(7, 7), (8, -8)] {
            let mut blocks = silence(3);
            put(&mut blocks, sample, bits);
            let mut originals = [0; 3 * BLOCK_SAMPLES];
            let expected = (sample / BLOCK_SAMPLES, Some(sample % BLOCK_SAMPLES), false, false);
            for off in [-300, -1, 0, 1, 300] {
                originals[sample] = value + off;
                is_yes(&originals, &blocks, off.unsigned_abs());
                if let Some(smaller) = off.unsigned_abs().checked_sub(1) {
                    assert_eq!(broken(&originals, &blocks, smaller), expected);
                }
            }
        }
    }
}

#[test]
fn a_difference_may_have_17_bits() {
    let mut blocks = [silent(0x00, 0), silent(0x00, END)].concat();
    put(&mut blocks, 28, 0x8);
    let mut originals = [0; 2 * BLOCK_SAMPLES];
    originals[28] = i16::MAX;
    is_yes(&originals, &blocks, 65_535);
    assert_eq!(broken(&originals, &blocks, 65_534), (1, Some(0), false, false));

    let mut blocks = silent(0x10, END); // filter 1: 28,672 and 60/64 of 28,672 are too much for a sample
    put(&mut blocks, 0, 0x7);
    put(&mut blocks, 1, 0x7);
    let mut originals = [0; BLOCK_SAMPLES];
    originals[1] = i16::MIN;
    is_yes(&originals, &blocks, 65_535);
    assert_eq!(broken(&originals, &blocks, 65_534), (0, Some(1), false, false));
}

#[test]
fn samples_rest_on_those_before_them_from_block_to_block() {
    // Filter 0 and shift 0 give 4,096 as the last sample of block 0. Block 1 has filter 1: 60/64 of the one before.
    let mut blocks = [silent(0x00, 0), silent(0x10, END)].concat();
    put(&mut blocks, 27, 0x1);
    let mut originals = [0; 2 * BLOCK_SAMPLES];
    originals[27] = 4096;
    for at in 28..originals.len() {
        originals[at] = ((60 * i32::from(originals[at - 1]) + 32) >> 6) as i16;
    }
    assert_eq!(originals[28..31], [3840, 3600, 3375]);
    is_yes(&originals, &blocks, 0);
    for at in 28..originals.len() {
        originals[at] += 1;
        assert_eq!(broken(&originals, &blocks, 0), (1, Some(at - 28), false, false));
        originals[at] -= 1;
    }
}

#[test]
fn the_last_block_and_no_other_has_the_end_flag() {
    let originals = [0; 3 * BLOCK_SAMPLES];
    for flags in 0..8 {
        let flag = |block: usize| (flags >> block & 1) as u8;
        let blocks = [0, 1, 2].map(|block| silent(PLAIN, 0xFE | flag(block))).concat();
        match (0..3).find(|&block| flag(block) != u8::from(block == 2)) {
            None => is_yes(&originals, &blocks, 0),
            Some(block) => assert_eq!(broken(&originals, &blocks, 0), (block, None, true, false)),
        }
    }
}

#[test]
fn filters_5_to_7_are_faults() {
    let originals = [0; 3 * BLOCK_SAMPLES];
    for (block, header) in (0..3).flat_map(|block| (0..=u8::MAX).map(move |header| (block, header))) {
        let mut blocks = silence(3);
        blocks[BLOCK_BYTES * block] = header;
        match header >> 4 & 7 {
            0..=4 => is_yes(&originals, &blocks, 0), // any shift, and bit 7
            _ => assert_eq!(broken(&originals, &blocks, 0), (block, None, false, true)),
        }
    }
}

#[test]
fn all_rules_that_a_block_breaks_are_named() {
    let mut blocks = [silent(PLAIN, 0), silent(0x7C, END), silent(0x5C, 0)].concat();
    put(&mut blocks, 28 + 9, 0x3);
    put(&mut blocks, 28 + 20, 0x4);
    let originals = [0; 3 * BLOCK_SAMPLES];
    assert_eq!(broken(&originals, &blocks, 2), (1, Some(9), true, true));
    assert_eq!(broken(&originals, &blocks, 3), (1, Some(20), true, true));
    assert_eq!(broken(&originals, &blocks, 4), (1, None, true, true));
}

#[test]
fn a_block_without_a_partner_is_at_fault() {
    for (groups, count) in (0..4).flat_map(|groups| (0..4).map(move |count| (groups, count))) {
        let originals = vec![0; BLOCK_SAMPLES * groups];
        if groups == count && count > 0 {
            is_yes(&originals, &silence(count), 0);
        } else {
            assert_eq!(unpaired(&originals, &silence(count)), groups.min(count), "{groups} groups, {count} blocks");
        }
    }
}

#[test]
fn the_last_block_is_that_of_the_encoded_bytes() {
    let originals = [0; 2 * BLOCK_SAMPLES];
    let one_too_many = [silence(2), silence(1)].concat();
    assert_eq!(broken(&originals, &one_too_many, 0), (1, None, true, false));
    assert_eq!(broken(&originals, &silent(PLAIN, 0), 0), (0, None, true, false));
    assert_eq!(unpaired(&originals, &silence(1)), 1);
}

#[test]
fn an_earlier_fault_goes_before_unequal_counts() {
    let mut blocks = silence(3);
    blocks[BLOCK_BYTES] = 0x60;
    assert_eq!(broken(&[0; 2 * BLOCK_SAMPLES], &blocks, 0), (1, None, false, true));
    assert_eq!(unpaired(&[0; BLOCK_SAMPLES], &blocks), 1);
    let mut originals = [0; 4 * BLOCK_SAMPLES];
    originals[5] = 1;
    assert_eq!(broken(&originals, &silence(3), 0), (0, Some(5), false, false));
}

#[test]
fn what_makes_no_whole_blocks_is_refused_before_all_else() {
    let (originals, bytes) = ([0; 3 * BLOCK_SAMPLES], [0xFF; 3 * BLOCK_BYTES]);
    for (samples, length) in (0..=originals.len()).flat_map(|samples| (0..=bytes.len()).map(move |n| (samples, n))) {
        let checked = encoder::check(&originals[..samples], &bytes[..length], 65_535);
        let is_whole = samples % BLOCK_SAMPLES == 0 && length % BLOCK_BYTES == 0;
        assert_eq!(checked.err(), (!is_whole).then_some(Refusal::Encoder), "{samples} samples, {length} bytes");
    }
}
