//! What needs neither `std` nor an allocator.

use tenonwhisk::{Refusal, Size, Spu, State};

#[test]
fn a_chip_over_lent_memory() -> Result<(), Refusal> {
    let (mut ram, mut marks) = ([0; Size::K64.ram_bytes()], [0; Size::K64.marks_bytes()]);
    let mut spu = Spu::with_memory(State::new(Size::K64), &mut ram[..], &mut marks[..])?;
    spu.write(0x1AA, 0xC010)?;
    spu.tick(0, 0)?;
    assert_eq!(spu.transfer_in(&[0x0700, 0x7777])?.count, 2);
    let mut out = [0; 20];
    assert_eq!(spu.run(&[], &mut out)?.count, 10);
    assert_eq!(spu.tick_number(), 11);
    assert_eq!(spu.write(0x1AE, 0), Err(Refusal::ReadOnly));
    Ok(())
}
