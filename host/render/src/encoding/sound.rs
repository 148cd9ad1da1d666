//! A sound: its original samples, and the blocks that an encoder made of them.

use std::io::{BufReader, Read};

use tenonwhisk::encoder::{BLOCK_BYTES, BLOCK_SAMPLES};
use tenonwhisk::Refusal;

use crate::encoding::options::Options;
use crate::failure::Failure;
use crate::source::Source;
use crate::wav_in::{self, Extent, Wanted};
use crate::words::counted;
use crate::{clashes, wav, whole};

pub struct Sound {
    /// The two files, as messages name them.
    pub original_name: String,
    pub encoded_name: String,
    pub originals: Vec<i16>,
    /// Originals a second.
    pub rate: u32,
    /// How many of the originals are zero samples that were added at the end.
    pub added: usize,
    pub blocks: Vec<u8>,
}

impl Sound {
    /// Looks at both files before it reads one.
    pub fn read(options: &Options) -> Result<Sound, Failure> {
        let (original, encoded) = (Source::find(&options.original)?, Source::find(&options.encoded)?);
        clashes::refuse_shared(&[("ORIGINAL", &original), ("ENCODED", &encoded)])?;
        let (original_name, encoded_name) = (original.name.clone(), encoded.name.clone());
        let (mut originals, rate) = read_originals(original)?;
        let blocks = read_blocks(encoded)?;
        let found = originals.len();
        if options.pad {
            originals.resize(found.next_multiple_of(BLOCK_SAMPLES), 0);
        }
        let added = originals.len() - found;
        Ok(Sound { original_name, encoded_name, originals, rate, added, blocks })
    }

    /// How many groups the originals make, one for each block.
    pub fn groups(&self) -> usize {
        self.originals.len() / BLOCK_SAMPLES
    }

    /// How many blocks there are.
    pub fn block_count(&self) -> usize {
        self.blocks.len() / BLOCK_BYTES
    }

    /// Why the core refuses the sound.
    pub fn refused(&self, refusal: Refusal) -> Failure {
        let Sound { original_name, encoded_name, originals, blocks, .. } = self;
        let mut reasons = Vec::new();
        if originals.len() % BLOCK_SAMPLES > 0 {
            let samples = counted(originals.len() as u64, "sample", "samples");
            let missing = (BLOCK_SAMPLES - originals.len() % BLOCK_SAMPLES) as u64;
            let missing = counted(missing, "sample is missing", "samples are missing");
            reasons.push(format!("{original_name} has {samples}, not a multiple of 28: {missing}; --pad adds zeros"));
        }
        if blocks.len() % BLOCK_BYTES > 0 {
            let bytes = counted(blocks.len() as u64, "byte", "bytes");
            let left = counted((blocks.len() % BLOCK_BYTES) as u64, "byte is left over", "bytes are left over");
            reasons.push(format!("{encoded_name} has {bytes}, not a multiple of 16: {left}"));
        }
        if refusal != Refusal::Encoder || reasons.is_empty() {
            reasons = vec![refusal.to_string()];
        }
        let lines: Vec<_> = reasons.iter().map(|reason| format!("refused ({}): {reason}", refusal.number())).collect();
        Failure::new(lines.join("\n"))
    }
}

/// The samples of a WAV file, and their rate.
fn read_originals(source: Source) -> Result<(Vec<i16>, u32), Failure> {
    let name = source.name.clone();
    let mut input = BufReader::new(source.open()?);
    let wav_in::Sound { extent, rate } =
        wav_in::find_sound(&mut input, Wanted::MONO).map_err(|unfit| unfit.into_failure(&name))?;
    let told = match extent {
        Extent::Bytes(bytes) => Some(bytes),
        Extent::ToTheEnd => None,
    };
    let bytes =
        whole::read(input.take(told.unwrap_or(u64::MAX)), "sound").map_err(|error| Failure::reading(&name, &error))?;
    let found = bytes.len();
    if let Some(told) = told.filter(|&told| told > found as u64) {
        return Err(Failure::new(format!(
            "{name} is shorter than its header says: it has {found} of {told} bytes of sound"
        )));
    }
    if found % 2 == 1 {
        let bytes = counted(found as u64, "byte", "bytes");
        return Err(Failure::new(format!("{name} has {bytes} of sound, but a sample takes 2 bytes")));
    }
    Ok((bytes.chunks_exact(2).map(|sample| i16::from_le_bytes([sample[0], sample[1]])).collect(), rate))
}

/// The bytes of a file without a header.
fn read_blocks(source: Source) -> Result<Vec<u8>, Failure> {
    let name = source.name.clone();
    let bytes = whole::read_file(source.open()?, "sound").map_err(|error| Failure::reading(&name, &error))?;
    if bytes.starts_with(b"VAGp") {
        return Err(Failure::new(format!(
            "{name} has a VAG header of 48 bytes before its blocks; leave it out: \
             tail -c +49 FILE | encheck ORIGINAL.wav -"
        )));
    }
    if wav::is_wav(&bytes) {
        return Err(Failure::new(format!("{name} is a WAV file; the blocks that an encoder made of one are wanted")));
    }
    Ok(bytes)
}
