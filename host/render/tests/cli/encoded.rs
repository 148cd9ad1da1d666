//! Encoded sounds for tests, and what they decode to.

pub const BLOCK_BYTES: usize = 16;
pub const BLOCK_SAMPLES: usize = 28;
pub const END: u8 = 1;

/// Blocks of all good filters and of all shifts, with any data. The last has the end flag.
pub fn some_blocks(count: usize) -> Vec<u8> {
    let mut seed = 1u32;
    let mut byte = || {
        seed = seed.wrapping_mul(1_664_525).wrapping_add(1_013_904_223);
        (seed >> 24) as u8
    };
    let mut blocks: Vec<u8> = (0..BLOCK_BYTES * count).map(|_| byte()).collect();
    for (n, block) in blocks.chunks_mut(BLOCK_BYTES).enumerate() {
        let filter = (n % 5) as u8;
        block[0] = block[0] & 0x8F | filter << 4;
        set_end(block, n + 1 == count);
    }
    blocks
}

/// The other bits of byte 1 stay.
pub fn set_end(block: &mut [u8], is_end: bool) {
    block[1] = block[1] & !END | if is_end { END } else { 0 };
}

/// What blocks decode to, by the formula of the chip.
pub fn decoded(blocks: &[u8]) -> Vec<i16> {
    let (mut old, mut older) = (0, 0);
    let mut samples = Vec::new();
    for block in blocks.chunks(BLOCK_BYTES) {
        let shift = if block[0] & 15 > 12 { 9 } else { block[0] & 15 };
        let (k0, k1) = match block[0] >> 4 & 7 {
            1 => (60, 0),
            2 => (115, -52),
            3 => (98, -55),
            4 => (122, -60),
            _ => (0, 0),
        };
        for n in 0..BLOCK_SAMPLES {
            let bits = i32::from(block[2 + n / 2] >> (4 * (n % 2)) & 15);
            let signed = if bits < 8 { bits } else { bits - 16 };
            let sample = (signed << (12 - shift)) + ((old * k0 + older * k1 + 32) >> 6);
            (older, old) = (old, sample.clamp(-32_768, 32_767));
            samples.push(old as i16);
        }
    }
    samples
}

/// A WAV file of 16 bits, mono.
pub fn mono_wav(rate: u32, samples: &[i16]) -> Vec<u8> {
    let sound: Vec<u8> = samples.iter().flat_map(|sample| sample.to_le_bytes()).collect();
    wav(1, rate, 16, &sound)
}

pub fn wav(channels: u16, rate: u32, bits: u16, sound: &[u8]) -> Vec<u8> {
    let length = sound.len() as u32;
    let frame_bytes = channels * bits / 8;
    let mut wav = [b"RIFF", &(36 + length).to_le_bytes()[..], b"WAVEfmt \x10\0\0\0\x01\0"].concat();
    wav.extend(channels.to_le_bytes());
    wav.extend(rate.to_le_bytes());
    wav.extend((rate * u32::from(frame_bytes)).to_le_bytes());
    wav.extend(frame_bytes.to_le_bytes());
    wav.extend(bits.to_le_bytes());
    wav.extend(b"data");
    wav.extend(length.to_le_bytes());
    wav.extend(sound);
    wav
}
