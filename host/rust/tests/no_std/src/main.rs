//! Ends with status 0 if a chip over lent memory makes its ticks, a sound bank is written and read, a sector of speech is
//! decoded, and a block of an encoder is checked.

#![no_std]
#![no_main]

use core::panic::PanicInfo;

use tenonwhisk::bank::{self, Entry};
use tenonwhisk::encoder::{self, Verdict};
use tenonwhisk::xa::{self, Bits, Channels, Histories};
use tenonwhisk::{Refusal, Size, Spu, State};

#[link(name = "c")]
extern "C" {}

fn ticks() -> Result<usize, Refusal> {
    let (mut ram, mut marks) = ([0; Size::K64.ram_bytes()], [0; Size::K64.marks_bytes()]);
    let mut spu = Spu::with_memory(State::new(Size::K64), &mut ram[..], &mut marks[..])?;
    let mut out = [0; 20];
    Ok(spu.run(&[], &mut out)?.count)
}

fn sound_bytes() -> Result<usize, Refusal> {
    let mut title = [0; bank::length(1, 20)];
    bank::write(&[Entry::sound(16, 1)], &[0; 20], &mut title)?;
    Ok(bank::lookup(&title, bank::EMPTY, 0)?.len())
}

fn first_sample() -> Result<i16, Refusal> {
    let mut sector = [0; xa::SECTOR_BYTES];
    sector[16] = 7;
    let mut out = [0; xa::SAMPLES];
    Histories::new().decode(&sector, Channels::Mono, Bits::Four, &mut out)?;
    Ok(out[0])
}

fn verdict() -> Result<Verdict, Refusal> {
    let mut block = [0; encoder::BLOCK_BYTES];
    block[1] = 1;
    encoder::check(&[5; encoder::BLOCK_SAMPLES], &block, 5)
}

#[no_mangle]
extern "C" fn main() -> i32 {
    let good =
        ticks() == Ok(10) && sound_bytes() == Ok(16) && first_sample() == Ok(0x7000) && verdict() == Ok(Verdict::Yes);
    i32::from(!good)
}

#[panic_handler]
fn panic(_: &PanicInfo) -> ! {
    loop {}
}

/// The compiled `core` names it; with `panic = "abort"` nothing calls it.
#[no_mangle]
extern "C" fn rust_eh_personality() {}
