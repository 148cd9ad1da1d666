//! `encheck`: its verdicts.

use crate::encoded::{decoded, mono_wav, set_end, some_blocks, BLOCK_BYTES, BLOCK_SAMPLES};
use crate::folder::{Folder, Ran};

/// Checks blocks against samples at 44,100 Hz.
fn checked(folder: &Folder, originals: &[i16], blocks: &[u8], options: &[&str]) -> Ran {
    folder.write("a.wav", mono_wav(44_100, originals));
    folder.write("b.adpcm", blocks);
    folder.encheck(&[&["a.wav", "b.adpcm"], options].concat())
}

/// 120 good blocks, and what they decode to.
fn sound() -> (Vec<i16>, Vec<u8>) {
    let blocks = some_blocks(120);
    (decoded(&blocks), blocks)
}

/// The bytes of one block.
fn block(blocks: &mut [u8], n: usize) -> &mut [u8] {
    &mut blocks[BLOCK_BYTES * n..BLOCK_BYTES * (n + 1)]
}

#[test]
fn good_blocks_are_a_yes() {
    let folder = Folder::new("encheck-yes");
    let (mut originals, blocks) = sound();
    let yes = "yes: 120 blocks (0.076 s), every sample";
    checked(&folder, &originals, &blocks, &["0"]).printed(0, &format!("{yes} equal to its original\n"));
    for (n, original) in originals.iter_mut().enumerate() {
        *original = original.saturating_add([50, -50, 7][n % 3]);
    }
    for error in ["50", "51", "65535"] {
        checked(&folder, &originals, &blocks, &[error]).printed(0, &format!("{yes} within {error} of its original\n"));
    }
    assert_eq!(checked(&folder, &originals, &blocks, &["49"]).status, Some(1));
    assert_eq!(folder.names(), ["a.wav", "b.adpcm"]);
}

#[test]
fn one_block_is_enough() {
    let folder = Folder::new("encheck-one");
    let blocks = some_blocks(1);
    checked(&folder, &decoded(&blocks), &blocks, &["3"])
        .printed(0, "yes: 1 block (0.001 s), every sample within 3 of its original\n");
}

#[test]
fn without_an_error_the_smallest_is_told() {
    let folder = Folder::new("encheck-smallest");
    let (exact, blocks) = sound();
    let yes = "yes: 120 blocks (0.076 s), every sample";
    let smallest = "the smallest E with which the answer is yes:";
    checked(&folder, &exact, &blocks, &[]).printed(0, &format!("{yes} equal to its original\n{smallest} 0\n"));
    for (sample, original) in [(0, 0), (1000, i16::MAX), (3359, i16::MIN)] {
        let mut originals = exact.clone();
        let error = exact[sample].abs_diff(original);
        originals[sample] = original;
        let within = format!("{yes} within {error} of its original\n{smallest} {error}\n");
        checked(&folder, &originals, &blocks, &[]).printed(0, &within);
        assert_eq!(checked(&folder, &originals, &blocks, &[&error.to_string()]).status, Some(0));
        assert_eq!(checked(&folder, &originals, &blocks, &[&(error - 1).to_string()]).status, Some(1));
    }
}

#[test]
fn the_largest_error_is_65535() {
    let folder = Folder::new("encheck-largest");
    let mut block = [0; BLOCK_BYTES];
    (block[1], block[2]) = (1, 8); // sample 0 is -32,768
    let mut originals = [0; BLOCK_SAMPLES];
    originals[0] = i16::MAX;
    let within = "yes: 1 block (0.001 s), every sample within 65535 of its original\n";
    checked(&folder, &originals, &block, &["65535"]).printed(0, within);
    checked(&folder, &originals, &block, &[])
        .printed(0, &format!("{within}the smallest E with which the answer is yes: 65535\n"));
    checked(&folder, &originals, &block, &["65534"]).printed(
        1,
        "no: block 0 of 1, at 0.000 s in the sound\n  \
         sample 0 (0.000 s) decodes to -32768, 65535 away from its original, 32767, but E is 65534\n",
    );
}

#[test]
fn a_sample_that_is_too_far_is_told_with_its_distance() {
    let folder = Folder::new("encheck-far");
    let (exact, blocks) = sound();
    for (sample, off) in [(340, -57), (340, 51), (363, 1000)] {
        let mut originals = exact.clone();
        originals[sample] = exact[sample] + off;
        originals[363] = exact[363] + 1000;
        originals[3000] = exact[3000].wrapping_add(i16::MIN);
        let (is, original, distance) = (exact[sample], originals[sample], off.unsigned_abs());
        checked(&folder, &originals, &blocks, &["50"]).printed(
            1,
            &format!(
                "no: block 12 of 120, at 0.008 s in the sound\n  \
                 sample {sample} (0.008 s) decodes to {is}, {distance} away from its original, {original}, \
                 but E is 50\n"
            ),
        );
    }
}

#[test]
fn the_time_is_that_of_the_rate() {
    let folder = Folder::new("encheck-rate");
    let (originals, blocks) = sound();
    folder.write("b.adpcm", &blocks);
    let mut far = originals.clone();
    far[2800] ^= 64;
    for (rate, whole, time) in [(8000, "0.420", "0.350"), (22_050, "0.152", "0.127"), (96_000, "0.035", "0.029")] {
        folder.write("a.wav", mono_wav(rate, &originals));
        let yes = format!("yes: 120 blocks ({whole} s), every sample within 9 of its original\n");
        folder.encheck(&["a.wav", "b.adpcm", "9"]).printed(0, &yes);
        folder.write("a.wav", mono_wav(rate, &far));
        let ran = folder.encheck(&["a.wav", "b.adpcm", "9"]);
        let no = format!("no: block 100 of 120, at {time} s in the sound\n  sample 2800 ({time} s) decodes to ");
        assert!(ran.status == Some(1) && ran.out.starts_with(no.as_bytes()), "{ran:?}");
    }
}

#[test]
fn a_filter_that_is_not_allowed_is_told() {
    let folder = Folder::new("encheck-filter");
    let (_, blocks) = sound();
    for filter in 5..8 {
        let mut blocks = blocks.clone();
        block(&mut blocks, 12)[0] = 0x80 | filter << 4 | 3;
        block(&mut blocks, 13)[0] = 0x70;
        for options in [&["0"][..], &[]] {
            checked(&folder, &decoded(&blocks), &blocks, options).printed(
                1,
                &format!(
                    "no: block 12 of 120, at 0.008 s in the sound\n  \
                     its filter is {filter}, but only 0 to 4 are allowed\n"
                ),
            );
        }
    }
}

#[test]
fn an_end_flag_that_is_wrong_is_told() {
    let folder = Folder::new("encheck-end-flag");
    let (originals, blocks) = sound();
    for (n, is_end, said) in [
        (0, true, "no: block 0 of 120, at 0.000 s in the sound\n  it has the end flag, but 119 more blocks follow\n"),
        (118, true, "no: block 118 of 120, at 0.075 s in the sound\n  it has the end flag, but 1 more block follows\n"),
        (
            119,
            false,
            "no: block 119 of 120, at 0.076 s in the sound\n  it is the last block, but it lacks the end flag\n",
        ),
    ] {
        let mut blocks = blocks.clone();
        set_end(block(&mut blocks, n), is_end);
        for options in [&["0"][..], &[]] {
            checked(&folder, &originals, &blocks, options).printed(1, said);
        }
    }
}

#[test]
fn every_rule_that_the_block_breaks_is_told() {
    let folder = Folder::new("encheck-rules");
    let (_, mut blocks) = sound();
    set_end(block(&mut blocks, 70), true);
    block(&mut blocks, 70)[0] = 0x60;
    block(&mut blocks, 90)[0] = 0x50;
    let mut originals = decoded(&blocks);
    let sample = 28 * 70 + 27;
    originals[sample] ^= 1;
    let (is, original) = (originals[sample] ^ 1, originals[sample]);
    checked(&folder, &originals, &blocks, &["0"]).printed(
        1,
        &format!(
            "no: block 70 of 120, at 0.044 s in the sound\n  \
             sample 1987 (0.045 s) decodes to {is}, 1 away from its original, {original}, but E is 0\n  \
             it has the end flag, but 49 more blocks follow\n  \
             its filter is 6, but only 0 to 4 are allowed\n"
        ),
    );
    checked(&folder, &originals, &blocks, &[]).printed(
        1,
        "no: block 70 of 120, at 0.044 s in the sound\n  \
         it has the end flag, but 49 more blocks follow\n  \
         its filter is 6, but only 0 to 4 are allowed\n",
    );
}

#[test]
fn a_block_without_a_partner_is_told() {
    let folder = Folder::new("encheck-unpaired");
    let (originals, blocks) = sound();
    for (groups, time, told) in [
        (119, "0.076 s", "119 groups of 28 samples"),
        (1, "0.001 s", "1 group of 28 samples"),
        (0, "0.000 s", "0 groups of 28 samples"),
    ] {
        checked(&folder, &originals[..BLOCK_SAMPLES * groups], &blocks, &["0"]).printed(
            1,
            &format!(
                "no: block {groups} of 120, at {time} in the sound\n  \
                 it has no originals: b.adpcm is longer than a.wav (120 blocks, but {told})\n"
            ),
        );
    }
    for (count, time, told) in [(119, "0.076 s", "119 blocks"), (1, "0.001 s", "1 block"), (0, "0.000 s", "0 blocks")] {
        let mut blocks = blocks[..BLOCK_BYTES * count].to_vec();
        if count > 0 {
            set_end(block(&mut blocks, count - 1), true);
        }
        checked(&folder, &originals, &blocks, &[]).printed(
            1,
            &format!(
                "no: block {count}, at {time} in the sound\n  \
                 there is no such block: a.wav is longer than b.adpcm (120 groups of 28 samples, but {told})\n"
            ),
        );
    }
}

#[test]
fn an_empty_sound_is_a_no() {
    let folder = Folder::new("encheck-empty");
    let empty =
        "no: block 0, at 0.000 s in the sound\n  the sound is empty: a.wav has no samples, and b.adpcm no blocks\n";
    for options in [&["65535"][..], &[], &["--pad"]] {
        checked(&folder, &[], &[], options).printed(1, empty);
    }
}

#[test]
fn an_earlier_fault_goes_before_the_counts_which_are_told_too() {
    let folder = Folder::new("encheck-besides");
    let (originals, mut blocks) = sound();
    checked(&folder, &originals, &blocks[..BLOCK_BYTES * 100], &["0"]).printed(
        1,
        "no: block 99 of 100, at 0.063 s in the sound\n  \
         it is the last block, but it lacks the end flag\n  \
         besides, a.wav is longer than b.adpcm (120 groups of 28 samples, but 100 blocks)\n",
    );
    blocks.extend(some_blocks(1));
    checked(&folder, &originals, &blocks, &["0"]).printed(
        1,
        "no: block 119 of 121, at 0.076 s in the sound\n  \
         it has the end flag, but 1 more block follows\n  \
         besides, b.adpcm is longer than a.wav (121 blocks, but 120 groups of 28 samples)\n",
    );
}

#[test]
fn what_makes_no_whole_blocks_is_refused() {
    let folder = Folder::new("encheck-refused");
    let (originals, blocks) = sound();
    let samples = |count, missing| {
        format!("refused (23): a.wav has {count}, not a multiple of 28: {missing}; --pad adds zeros\n")
    };
    let bytes = |count, left| format!("refused (23): b.adpcm has {count}, not a multiple of 16: {left}\n");
    for (length, said) in [
        (1, samples("1 sample", "27 samples are missing")),
        (27, samples("27 samples", "1 sample is missing")),
        (3350, samples("3350 samples", "10 samples are missing")),
    ] {
        checked(&folder, &originals[..length], &blocks, &["50"]).is(4, &said);
    }
    for (length, said) in [
        (1, bytes("1 byte", "1 byte is left over")),
        (1919, bytes("1919 bytes", "15 bytes are left over")),
        (1905, bytes("1905 bytes", "1 byte is left over")),
    ] {
        for options in [&["50"][..], &[], &["--pad"]] {
            checked(&folder, &originals, &blocks[..length], options).is(4, &said);
        }
        let both = samples("5 samples", "23 samples are missing") + &said;
        let ran = checked(&folder, &originals[..5], &blocks[..length], &[]);
        ran.is(4, &both);
        assert_eq!(ran.out, b"");
        checked(&folder, &originals[..5], &blocks[..length], &["--pad"]).is(4, &said);
    }
}

#[test]
fn the_originals_are_filled_up_with_zeros() {
    let folder = Folder::new("encheck-pad");
    let (mut originals, blocks) = sound();
    let yes = "yes: 120 blocks (0.076 s), every sample equal to its original\n";
    checked(&folder, &originals, &blocks, &["0", "--pad"]).printed(0, yes);
    let mut silent_end = blocks.clone();
    block(&mut silent_end, 119)[0] = 0;
    for byte in 4..16 {
        block(&mut silent_end, 119)[byte] = 0;
    }
    originals = decoded(&silent_end);
    assert!(originals[3335] != 0 && originals[3336..] == [0; 24]);
    for (length, added) in [(3336, "24 zero samples"), (3359, "1 zero sample")] {
        let padded = format!("{yes}--pad added {added} to the {length} of a.wav\n");
        checked(&folder, &originals[..length], &silent_end, &["0", "--pad"]).printed(0, &padded);
    }
    let last = originals[3335];
    checked(&folder, &originals[..3335], &silent_end, &["--pad", "0"]).printed(
        1,
        &format!(
            "no: block 119 of 120, at 0.076 s in the sound\n  \
             sample 3335 (0.076 s) decodes to {last}, {} away from its original, 0, but E is 0\n\
             --pad added 25 zero samples to the 3335 of a.wav\n",
            last.unsigned_abs()
        ),
    );
}
