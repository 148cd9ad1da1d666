//! Moves bytes to sound RAM through the chip's own transfers, so that the marks tell the truth.

use std::fs::{self, File};
use std::io::Read;
use std::path::Path;

use tenonwhisk::{Refusal, Size, Spu, State};

use crate::files::{self, Identity};
use crate::words;

const TRANSFER_ADDRESS: u32 = 0x1A6;
const CONTROL: u32 = 0x1AA;
/// Transfer mode 1, and nothing that sounds or interrupts.
const CONTROL_INWARD: u16 = 0x0010;
const UNIT_BYTES: u32 = 8;
const MOST_HALFWORDS: usize = 32;

/// Why nothing was loaded, in words.
pub type NotLoaded = String;

pub struct Loader {
    size: Size,
    /// The state of a chip that is ready for transfers inward. A load swaps it in, so that the state of the chip that
    /// sounds stays as it is.
    ready: State,
}

impl Loader {
    pub fn new(size: Size) -> Result<Loader, Refusal> {
        let mut scratch = Spu::new(size);
        scratch.write(CONTROL, CONTROL_INWARD)?;
        scratch.tick(0, 0)?; // the mode is applied
        Ok(Loader { size, ready: scratch.state().clone() })
    }

    /// How many bytes fit between the address and the end of sound RAM.
    pub fn room(&self, address: u32) -> Result<usize, NotLoaded> {
        let ram_bytes = self.size.ram_bytes();
        if address as usize >= ram_bytes {
            return Err(format!("address {address:X}h lies beyond the end of sound RAM ({ram_bytes} bytes)"));
        }
        if address % UNIT_BYTES != 0 {
            return Err(format!("address {address:X}h is not a multiple of 8"));
        }
        Ok(ram_bytes - address as usize)
    }

    /// Expects an even number of bytes that fit.
    pub fn load(&self, spu: &mut Spu, address: u32, bytes: &[u8]) -> Result<(), Refusal> {
        let state = spu.state().clone();
        spu.set_state(self.ready.clone())?;
        let moved = move_in(spu, address, bytes);
        spu.set_state(state)?;
        moved
    }
}

fn move_in(spu: &mut Spu, address: u32, bytes: &[u8]) -> Result<(), Refusal> {
    spu.write(TRANSFER_ADDRESS, (address / UNIT_BYTES) as u16)?;
    transfer(spu, bytes)
}

/// Moves an even number of bytes to the transfer address. What refuses one of the transfers refuses the first, so a
/// refused move moves nothing.
pub fn transfer(spu: &mut Spu, bytes: &[u8]) -> Result<(), Refusal> {
    let halfwords: Vec<u16> = bytes.chunks_exact(2).map(|pair| u16::from_le_bytes([pair[0], pair[1]])).collect();
    halfwords.chunks(MOST_HALFWORDS).try_for_each(|part| spu.transfer_in(part).map(|_| ()))
}

/// Looks at a file without opening it: a FIFO would wait for its writer.
pub fn identity(path: &Path) -> Result<Option<Identity>, NotLoaded> {
    match fs::metadata(path) {
        Ok(metadata) if metadata.is_dir() => Err(words::error(&files::is_a_directory())),
        Ok(metadata) => Ok(Identity::of(&metadata)),
        Err(error) => Err(words::error(&error)),
    }
}

/// The bytes of a file, if there is room for them. It reads at most one byte more than there is room for.
pub fn read(path: &Path, room: usize) -> Result<Vec<u8>, NotLoaded> {
    let unreadable = |error| words::error(&error);
    let file = File::open(path).map_err(unreadable)?;
    let length = file.metadata().map_err(unreadable)?.len();
    if length > room as u64 {
        return Err(format!("it has {length} bytes, but only {room} fit at this address"));
    }
    let mut bytes = Vec::new();
    file.take(room as u64 + 1).read_to_end(&mut bytes).map_err(unreadable)?;
    match bytes.len() {
        0 => Err("it is empty".to_owned()),
        length if length > room => Err(format!("it has more bytes than the {room} that fit at this address")),
        length if length % 2 == 1 => {
            Err(format!("its length of {length} bytes is odd, but sound RAM takes halfwords of 2 bytes"))
        }
        _ => Ok(bytes),
    }
}

#[cfg(test)]
mod tests {
    use super::*;

    const SIZES: [Size; 2] = [Size::K64, Size::K512];

    fn some_bytes(length: usize) -> Vec<u8> {
        (0..length).map(|k| (k * 37 % 251) as u8).collect()
    }

    fn marked(spu: &Spu, byte: usize) -> bool {
        let halfword = byte / 2;
        spu.marks()[halfword / 8] >> (halfword % 8) & 1 == 1
    }

    /// A chip in the middle of its work: transfers outward, the interrupt where the load goes.
    fn busy(size: Size) -> Spu {
        let mut spu = Spu::new(size);
        for (offset, value) in [(0x1AA, 0xC070), (0x1A4, 0x200), (0x1A6, 0x123), (0x6, 0x200), (0x188, 1)] {
            spu.write(offset, value).unwrap();
        }
        spu.run(&[0; 20], &mut [0; 20]).unwrap();
        spu
    }

    #[test]
    fn a_load_moves_and_marks_bytes_and_changes_nothing_else() {
        for size in SIZES {
            let mut spu = busy(size);
            let before = spu.clone();
            let bytes = some_bytes(1002);
            Loader::new(size).unwrap().load(&mut spu, 0x1000, &bytes).unwrap();
            assert_eq!(spu.state(), before.state());
            let loaded = 0x1000..0x1000 + bytes.len();
            assert_eq!(spu.ram()[loaded.clone()], bytes);
            for at in 0..size.ram_bytes() {
                let is_loaded = loaded.contains(&at);
                assert_eq!(marked(&spu, at), is_loaded || marked(&before, at));
                assert!(is_loaded || spu.ram()[at] == before.ram()[at]);
            }
        }
    }

    #[test]
    fn all_of_sound_ram_may_be_loaded() {
        for size in SIZES {
            let mut spu = Spu::new(size);
            let bytes = some_bytes(size.ram_bytes());
            Loader::new(size).unwrap().load(&mut spu, 0, &bytes).unwrap();
            assert!(spu.ram() == bytes && spu.marks().iter().all(|&marks| marks == 0xFF));
            assert_eq!(spu.state(), &State::new(size));
        }
    }

    #[test]
    fn room_ends_with_sound_ram() {
        let [small, large] = SIZES.map(|size| Loader::new(size).unwrap());
        assert_eq!(small.room(0), Ok(65536));
        assert_eq!(small.room(0xFFF8), Ok(8));
        assert_eq!(large.room(0x7FFF8), Ok(8));
        assert_eq!(
            small.room(0x10000),
            Err("address 10000h lies beyond the end of sound RAM (65536 bytes)".to_owned())
        );
        assert!(large.room(0x80000).is_err());
        assert_eq!(small.room(0x1004), Err("address 1004h is not a multiple of 8".to_owned()));
    }

    #[test]
    fn a_file_without_end_is_not_read_to_its_end() {
        let words = "it has more bytes than the 16 that fit at this address";
        assert_eq!(read(Path::new("/dev/zero"), 16), Err(words.to_owned()));
        assert_eq!(read(Path::new("/dev/null"), 16), Err("it is empty".to_owned()));
    }
}
