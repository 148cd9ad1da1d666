//! One second of a tone at 440 Hz: each step of a host, with its refusal handled.

use tenonwhisk::{Refusal, Size, Spu};

const TICKS: usize = 44100;

/// One period of a sine in an ADPCM block that loops on itself: shift 0, filter 0, flags 7, and 28 samples.
const BLOCK: [u16; 8] = [0x0700, 0x4320, 0x7765, 0x4567, 0xE023, 0xABCD, 0xA999, 0xEDCB];

fn load_block(spu: &mut Spu) -> Result<(), Refusal> {
    spu.write(0x1AA, 0xC010)?; // SPUCNT: on, unmuted, transfers inward
    spu.tick(0, 0)?; // a tick applies the transfer mode
    spu.write(0x1A6, 0x1000 / 8)?; // transfer address
    spu.transfer_in(&BLOCK)?;
    Ok(())
}

fn key_on(spu: &mut Spu) -> Result<(), Refusal> {
    spu.write(0x180, 0x3FFF)?; // main volume, left
    spu.write(0x182, 0x3FFF)?; // main volume, right
    spu.write(0x000, 0x2000)?; // voice 0: volume, left
    spu.write(0x002, 0x2000)?; // volume, right
    spu.write(0x004, 0x0478)?; // pitch: 440 Hz, where 1000h is 44100 samples a second
    spu.write(0x006, 0x1000 / 8)?; // start address
    spu.write(0x008, 0x000F)?; // envelope: at once to its highest level, and stay there
    spu.write(0x188, 1 << 0) // key voice 0 on
}

fn peak(samples: &[i16]) -> u16 {
    samples.iter().map(|sample| sample.unsigned_abs()).max().unwrap_or(0)
}

fn play() -> Result<(), Refusal> {
    let mut spu = Spu::new(Size::K64);
    load_block(&mut spu)?;
    key_on(&mut spu)?;
    let mut out = vec![0; 2 * TICKS]; // left, right, left, ..
    let ran = spu.run(&[], &mut out)?; // no CD
    println!("{} ticks, peak {} of 32767", ran.count, peak(&out));
    println!("in doubt: {}", if spu.doubt() { "yes" } else { "no" });
    if let Err(refusal) = spu.write(0x1AE, 0) {
        println!("a write to 1AEh: {refusal}");
    }
    Ok(())
}

fn main() {
    if let Err(refusal) = play() {
        eprintln!("refused: {refusal}");
        std::process::exit(1);
    }
}
