//! The verdict on a sound. All that it tells comes from the core's check, which is asked again with other errors. Nothing
//! is decoded here.

use tenonwhisk::encoder::{self, Fault, Verdict, BLOCK_BYTES, BLOCK_SAMPLES};
use tenonwhisk::Refusal;

use crate::console::Console;
use crate::encoding::sound::Sound;

pub enum Judgment {
    /// Every sample is within this error of its original.
    Yes(Within),
    /// A sample that is too far from its original is told with the fault.
    No(Fault, Option<Far>),
}

pub enum Within {
    Allowed(u16),
    /// With any smaller error the answer is no.
    Smallest(u16),
}

/// A sample that is too far from its original.
#[derive(Debug, PartialEq, Eq)]
pub struct Far {
    /// Its number in the sound, from 0 on.
    pub sample: usize,
    pub original: i16,
    pub decoded: i32,
    pub distance: u16,
    /// The largest distance that is allowed.
    pub allowed: u16,
}

/// Without a largest error any is allowed.
pub fn judge(sound: &Sound, largest: Option<u16>, console: &mut Console) -> Result<Judgment, Refusal> {
    let allowed = largest.unwrap_or(u16::MAX);
    Ok(match encoder::check(&sound.originals, &sound.blocks, allowed)? {
        Verdict::Yes if largest.is_some() => Judgment::Yes(Within::Allowed(allowed)),
        Verdict::Yes => Judgment::Yes(Within::Smallest(smallest_error(sound, console)?)),
        Verdict::No(fault) => {
            let far = fault.sample.map(|sample| measure(sound, fault.block, sample, allowed, console));
            Judgment::No(fault, far.transpose()?)
        }
    })
}

/// The smallest error with which the answer is yes. Expects that it is yes with the largest.
fn smallest_error(sound: &Sound, console: &mut Console) -> Result<u16, Refusal> {
    smallest(0, u16::MAX, |largest| {
        console.progress(|| format!("looking for the smallest E: trying {largest}"));
        Ok(encoder::check(&sound.originals, &sound.blocks, largest)? == Verdict::Yes)
    })
}

/// Finds out how far a sample is from its original, and in which direction. Expects the first sample of the first block
/// at fault.
fn measure(sound: &Sound, block: usize, sample: usize, allowed: u16, console: &mut Console) -> Result<Far, Refusal> {
    // The blocks before this one break no rule, with a larger error neither. Those after it do not matter.
    let blocks = &sound.blocks[..BLOCK_BYTES * (block + 1)];
    let mut originals = sound.originals[..BLOCK_SAMPLES * (block + 1)].to_vec();
    let is_near = |originals: &[i16], largest| match encoder::check(originals, blocks, largest)? {
        Verdict::Yes => Ok(true),
        Verdict::No(fault) => Ok(fault.sample != Some(sample)),
    };
    let distance = smallest(allowed.saturating_add(1), u16::MAX, |largest| {
        console.progress(|| format!("measuring the error of block {block}: trying {largest}"));
        is_near(&originals, largest)
    })?;

    let at = BLOCK_SAMPLES * block + sample;
    let original = originals[at];
    let below = i32::from(original) - i32::from(distance);
    let decoded = match original.checked_add_unsigned(distance) {
        None => below,
        Some(above) => {
            originals[at] = above; // either what the sample decodes to, or twice as far from it
            if is_near(&originals, allowed)? {
                above.into()
            } else {
                below
            }
        }
    };
    Ok(Far { sample: at, original, decoded, distance, allowed })
}

/// The smallest number from `least` to `most` that is good. Expects that `most` is good, and so is any number above a
/// good one.
fn smallest(least: u16, most: u16, mut is_good: impl FnMut(u16) -> Result<bool, Refusal>) -> Result<u16, Refusal> {
    let (mut least, mut most) = (least, most);
    while least < most {
        let middle = least + (most - least) / 2;
        if is_good(middle)? {
            most = middle;
        } else {
            least = middle + 1;
        }
    }
    Ok(least)
}

#[cfg(test)]
mod tests {
    use super::*;

    #[test]
    fn the_smallest_is_found_in_few_steps() {
        for wanted in [0, 1, 2, 3, 1000, 32_767, 32_768, 65_533, 65_534, 65_535] {
            for least in [0, 1, 999, 40_000].into_iter().filter(|&least| least <= wanted) {
                let mut steps = 0;
                let found = smallest(least, u16::MAX, |number| {
                    steps += 1;
                    Ok(number >= wanted)
                });
                assert_eq!(found, Ok(wanted));
                assert!(steps <= 16, "{steps} steps to {wanted}");
            }
        }
    }

    /// A block with filter 0 and shift 0: each sample is its 4 bits, times 4,096.
    fn sound(original: i16, bits: u8) -> Sound {
        let mut blocks = vec![0; 3 * BLOCK_BYTES];
        blocks[2 * BLOCK_BYTES + 1] = 1;
        blocks[BLOCK_BYTES + 2 + 4] = bits << 4; // sample 9 of block 1
        let mut originals = vec![0; 3 * BLOCK_SAMPLES];
        originals[BLOCK_SAMPLES + 9] = original;
        let (original_name, encoded_name) = ("a".to_owned(), "b".to_owned());
        Sound { original_name, encoded_name, originals, rate: 44_100, added: 0, blocks }
    }

    fn far(sound: &Sound, allowed: u16) -> Option<Far> {
        match judge(sound, Some(allowed), &mut Console::new()).unwrap() {
            Judgment::Yes(_) => None,
            Judgment::No(fault, far) => {
                assert_eq!((fault.block, fault.sample), (1, Some(9)));
                far
            }
        }
    }

    #[test]
    fn a_sample_that_is_too_far_is_measured() {
        for (bits, decoded) in [(0, 0), (1, 4096), (7, 28_672), (8, -32_768), (0xF, -4096)] {
            for original in [i16::MIN, -4097, -4096, -1, 0, 1, 50, 4095, 28_671, i16::MAX] {
                let sound = sound(original, bits);
                let distance = (i32::from(original) - decoded).unsigned_abs() as u16;
                for allowed in [0, 1, 40, 4095, 32_767, 65_534] {
                    let expected = Far { sample: 37, original, decoded, distance, allowed };
                    assert_eq!(far(&sound, allowed), (distance > allowed).then_some(expected));
                }
            }
        }
    }

    #[test]
    fn other_faults_of_the_block_do_not_matter() {
        let mut sound = sound(100, 0);
        sound.originals[BLOCK_SAMPLES + 10] = 20_000;
        sound.originals[2 * BLOCK_SAMPLES] = 30_000;
        (sound.blocks[BLOCK_BYTES], sound.blocks[BLOCK_BYTES + 1]) = (0x70, 1);
        assert_eq!(far(&sound, 7), Some(Far { sample: 37, original: 100, decoded: 0, distance: 100, allowed: 7 }));
    }

    #[test]
    fn the_smallest_error_is_that_of_the_farthest_sample() {
        for (original, error) in [(0, 0), (1, 1), (-50, 50), (i16::MIN, 32_768)] {
            let judgment = judge(&sound(original, 0), None, &mut Console::new()).unwrap();
            assert!(matches!(judgment, Judgment::Yes(Within::Smallest(smallest)) if smallest == error));
        }
        let judgment = judge(&sound(i16::MAX, 8), None, &mut Console::new()).unwrap();
        assert!(matches!(judgment, Judgment::Yes(Within::Smallest(u16::MAX))));
    }
}
