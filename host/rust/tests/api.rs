//! The API as a host uses it.

use std::thread;

use tenonwhisk::{Moved, Ran, Refusal, Rejected, Size, Spu, State};

const PAIRS: usize = 600;

/// Registers, by offset and value, of a voice that plays unit 200h at once and as loud as it gets.
const VOICE: [(u32, u16); 7] =
    [(0x180, 0x3FFF), (0x182, 0x3FFF), (0x0, 0x3FFF), (0x2, 0x1FFF), (0x4, 0x1000), (0x6, 0x200), (0x8, 0x000F)];

/// A block that goes on to the next.
const BLOCK: [u16; 8] = [0x0404, 0x1234, 0x5678, 0x9ABC, 0xDEF0, 0x0FED, 0xCBA9, 0x8765];

fn write_all(spu: &mut Spu, settings: &[(u32, u16)]) {
    for &(offset, value) in settings {
        spu.write(offset, value).unwrap();
    }
}

fn apply_control(spu: &mut Spu, control: u16) {
    spu.write(0x1AA, control).unwrap();
    spu.tick(0, 0).unwrap();
}

/// One voice plays `blocks` blocks, then memory that nobody loaded. The interrupt comes when capture reaches 100h.
fn composed(size: Size, blocks: usize) -> Spu {
    let mut spu = Spu::new(size);
    apply_control(&mut spu, 0xC010);
    spu.write(0x1A6, 0x200).unwrap();
    for _ in 0..blocks {
        spu.transfer_in(&BLOCK).unwrap();
    }
    write_all(&mut spu, &VOICE);
    write_all(&mut spu, &[(0x1A4, 0x20), (0x1AA, 0xC051), (0x1B0, 0x4000), (0x188, 1)]);
    spu
}

fn cd() -> Vec<i16> {
    (0..2 * PAIRS).map(|k| (k * 7919 % 65536) as u16 as i16).collect()
}

fn play(spu: &mut Spu) -> (Vec<i16>, Ran) {
    let mut out = vec![0; 2 * PAIRS];
    let ran = spu.run(&cd(), &mut out).unwrap();
    (out, ran)
}

/// What a transfer did, by count, interrupt and doubt.
fn told(moved: Result<Moved, Refusal>) -> Result<(usize, bool, bool), Refusal> {
    moved.map(|moved| (moved.count, moved.irq, moved.doubt))
}

fn assert_same(a: &Spu, b: &Spu) {
    assert_eq!(a.state(), b.state());
    assert!(a.ram() == b.ram() && a.marks() == b.marks());
}

#[test]
fn a_fresh_chip() {
    for size in [Size::K64, Size::K512] {
        let spu = Spu::new(size);
        assert_eq!(spu.state(), &State::new(size));
        assert_eq!((spu.state().size(), spu.tick_number(), spu.doubt()), (size, 0, false));
        assert_eq!((spu.ram().len(), spu.marks().len()), (size.ram_bytes(), size.marks_bytes()));
    }
}

#[test]
fn registers() {
    let mut spu = Spu::new(Size::K64);
    spu.write(0x180, 0x1234).unwrap();
    assert_eq!(spu.read(0x180), Ok(0x1234));
    assert_eq!(spu.read(0x1B8), Ok(0x2468));
    let before = spu.state().clone();
    assert_eq!(spu.write(0x181, 0), Err(Refusal::Offset));
    assert_eq!(spu.write(0x1AE, 0), Err(Refusal::ReadOnly));
    assert_eq!(spu.write(0x180, 0x8000), Err(Refusal::NotCarried));
    for (offset, value) in [(0x00A, 0x2000), (0x17A, 0xFFFF), (0x18A, 0x0101), (0x19A, 0x8000), (0x1AC, 0x0005)] {
        assert_eq!(spu.write(offset, value), Err(Refusal::Undocumented), "{offset:X}h");
    }
    assert_eq!(spu.write(0x1AC, 0x0006), Err(Refusal::NotCarried));
    assert_eq!(spu.write(0x1AC, 0x0016), Err(Refusal::Undocumented));
    assert_eq!(spu.write(0x19E, 0xFF00), Err(Refusal::ReadOnly));
    assert_eq!(spu.read(0x200), Err(Refusal::Offset));
    assert_eq!(spu.read(0x1A8), Err(Refusal::NotCarried));
    assert_eq!(spu.state(), &before);
}

#[test]
fn transfers() {
    let mut spu = Spu::new(Size::K64);
    let values: Vec<u16> = (1..=33).collect();
    let mut out = [0xA5A5; 33];
    assert_eq!(spu.transfer_in(&values[..32]), Err(Refusal::Mode));
    apply_control(&mut spu, 0xC020);
    spu.write(0x1A6, 0x200).unwrap();
    assert_eq!(spu.transfer_in(&[]), Err(Refusal::Count));
    assert_eq!(spu.transfer_in(&values), Err(Refusal::Count));
    assert_eq!(told(spu.transfer_in(&values[..32])), Ok((32, false, false)));
    assert_eq!(spu.transfer_out(&mut out), Err(Refusal::Mode));
    apply_control(&mut spu, 0xC030);
    spu.write(0x1A6, 0x200).unwrap();
    assert_eq!(spu.transfer_out(&mut out), Err(Refusal::Count));
    assert_eq!(out, [0xA5A5; 33]);
    assert_eq!(told(spu.transfer_out(&mut out[..32])), Ok((32, false, false)));
    assert_eq!(out[..32], values[..32]);
    assert_eq!(told(spu.transfer_out(&mut out[..1])), Ok((1, false, true)));
    assert!(spu.doubt());
}

#[test]
fn a_run_is_its_ticks() {
    for size in [Size::K64, Size::K512] {
        let (mut run, mut single, mut floats, mut single_floats) =
            (composed(size, 4), composed(size, 4), composed(size, 4), composed(size, 4));
        let (out, ran) = play(&mut run);
        let (mut out_beside, mut as_floats) = (vec![0; 2 * PAIRS], vec![0.0; 2 * PAIRS]);
        assert_eq!(floats.run_floats(&cd(), &mut out_beside, &mut as_floats), Ok(ran));
        assert_eq!(out_beside, out);
        let (mut irq, mut doubt) = (None, None);
        for (k, cd) in cd().chunks(2).enumerate() {
            let ticked = single.tick(cd[0], cd[1]).unwrap();
            assert_eq!([ticked.left, ticked.right], out[2 * k..2 * k + 2]);
            irq = irq.or(ticked.irq.then_some(k));
            doubt = doubt.or(ticked.doubt.then_some(k));
            let ticked = single_floats.tick_floats(cd[0], cd[1]).unwrap();
            assert_eq!([ticked.left, ticked.right], as_floats[2 * k..2 * k + 2]);
            assert_eq!(ticked.left, f32::from(out[2 * k]) / 32768.0);
            assert_eq!(ticked.right, f32::from(out[2 * k + 1]) / 32768.0);
        }
        assert_eq!((ran.count, ran.irq, ran.doubt), (PAIRS, irq, doubt));
        assert!(irq.is_some() && doubt.is_some() && out.iter().any(|&sample| sample != 0));
        for other in [&single, &floats, &single_floats] {
            assert_same(&run, other);
        }
    }
}

#[test]
fn buffers_of_a_run() {
    let mut spu = composed(Size::K64, 1);
    let before = spu.clone();
    let (mut out, mut floats) = ([77; 6], [7.5; 6]);
    assert_eq!(spu.run(&[0; 4], &mut out), Err(Refusal::Buffers));
    assert_eq!(spu.run(&[0; 5], &mut out[..5]), Err(Refusal::Buffers));
    assert_eq!(spu.run_floats(&[0; 6], &mut out, &mut floats[..4]), Err(Refusal::Buffers));
    assert_eq!((out, floats), ([77; 6], [7.5; 6]));
    assert_same(&spu, &before);
    let ran = spu.run(&[], &mut []).unwrap();
    assert_eq!((ran.count, ran.irq, ran.doubt), (0, None, None));
}

#[test]
fn no_cd_is_a_silent_one() {
    let (mut silent, mut none, mut floats) = (composed(Size::K64, 4), composed(Size::K64, 4), composed(Size::K64, 4));
    let (mut heard, mut out, mut as_floats) = (vec![0; 2 * PAIRS], vec![0; 2 * PAIRS], vec![0.0; 2 * PAIRS]);
    let ran = silent.run(&vec![0; 2 * PAIRS], &mut heard);
    assert!(ran.is_ok() && heard.iter().any(|&sample| sample != 0));
    assert_eq!(none.run(&[], &mut out), ran);
    assert_eq!(out, heard);
    out.fill(0);
    assert_eq!(floats.run_floats(&[], &mut out, &mut as_floats), ran);
    assert_eq!(out, heard);
    assert!(as_floats.iter().zip(&heard).all(|(&float, &sample)| float == f32::from(sample) / 32768.0));
    assert_same(&silent, &none);
    assert_same(&silent, &floats);
    assert_eq!(none.run(&[], &mut out[1..]), Err(Refusal::Buffers));
}

#[test]
fn lent_memory_is_as_good_as_owned() {
    let mut owned = composed(Size::K64, 4);
    let (state, mut ram, mut marks) = owned.clone().into_parts();
    let mut lent = Spu::with_memory(state, &mut ram[..], &mut marks[..]).unwrap();
    let mut out = vec![0; 2 * PAIRS];
    let ran = lent.run(&cd(), &mut out).unwrap();
    let (state, ..) = lent.into_parts();
    assert_eq!(play(&mut owned), (out, ran));
    assert_same(&owned, &Spu::with_memory(state, ram, marks).unwrap());
}

#[test]
fn memory_of_another_size() {
    let (mut ram, mut marks) = (vec![0; 0x10000], vec![0; 0x1000]);
    let large = State::new(Size::K512);
    assert_eq!(Spu::with_memory(large.clone(), &mut ram[..], &mut marks[..]).unwrap_err().refusal, Refusal::Memory);
    let small = State::new(Size::K64);
    assert_eq!(Spu::with_memory(small.clone(), &mut ram[..], &mut marks[1..]).unwrap_err().refusal, Refusal::Memory);
    let mut spu = Spu::with_memory(small, &mut ram[..], &mut marks[..]).unwrap();
    assert_eq!(spu.set_state(large), Err(Refusal::Memory));
}

#[test]
fn rejected_memory_comes_back() {
    let state = composed(Size::K64, 1).state().clone();
    let rejected = Spu::with_memory(state.clone(), vec![1; 3], vec![2; 4]).unwrap_err();
    assert_eq!(rejected.to_string(), Refusal::Memory.to_string());
    let shown = format!("{rejected:?}");
    assert!(shown.contains("Memory") && shown.contains("ram_bytes: 3") && shown.len() < 200, "{shown}");
    let Rejected { refusal, state: given, ram, marks } = rejected;
    assert_eq!((refusal, given, ram, marks), (Refusal::Memory, state, vec![1; 3], vec![2; 4]));
}

#[test]
fn rejected_memory_is_a_refusal() {
    fn tick(ram: &mut [u8]) -> Result<(), Refusal> {
        Spu::with_memory(State::new(Size::K64), ram, &mut [0; 4096])?.tick(0, 0)?;
        Ok(())
    }
    assert_eq!(tick(&mut [0; 65536]), Ok(()));
    assert_eq!(tick(&mut [0; 65535]), Err(Refusal::Memory));
}

#[test]
fn a_chip_is_shown_in_short() {
    let shown = format!("{:?}", composed(Size::K512, 1));
    assert!(shown.starts_with("Spu { state: State { size: K512, tick_number: 1,"), "{shown}");
    assert!(shown.contains("ram_bytes: 524288, marks_bytes: 32768") && shown.len() < 200, "{shown}");
    let unshown = || Unshown(vec![0; 65536]);
    let rejected = Spu::with_memory(State::new(Size::K64), unshown(), unshown()).unwrap_err();
    assert!(format!("{rejected:?}").len() < 200);
    let (state, ram, mut marks) = (rejected.state, rejected.ram, rejected.marks);
    marks.0.truncate(4096);
    assert!(format!("{:?}", Spu::with_memory(state, ram, marks).unwrap()).len() < 200);
}

/// Memory of another kind, without `Debug`.
struct Unshown(Vec<u8>);

impl AsRef<[u8]> for Unshown {
    fn as_ref(&self) -> &[u8] {
        &self.0
    }
}

impl AsMut<[u8]> for Unshown {
    fn as_mut(&mut self) -> &mut [u8] {
        &mut self.0
    }
}

#[test]
fn a_saved_state_goes_on_the_same() {
    let mut spu = composed(Size::K64, 4);
    play(&mut spu);
    let saved = spu.state().as_halfwords().to_vec();
    let mut restored = spu.clone();
    restored.reset();
    assert_eq!(restored.state(), &State::new(Size::K64));
    restored.set_state(State::from_halfwords(&saved).unwrap()).unwrap();
    assert_eq!(play(&mut spu), play(&mut restored));
    assert_same(&spu, &restored);
}

#[test]
fn damaged_states() {
    let good = composed(Size::K64, 1).state().clone();
    for damaged in [0, 1, 3, 260, 283, 452, 476, 500, 1273, 1277, 1283] {
        let mut halfwords = *good.as_halfwords();
        halfwords[damaged] ^= 0x8000;
        assert_eq!(State::from_halfwords(&halfwords), Err(Refusal::State), "halfword {damaged}");
    }
    for any in [4, 259, 428, 451, 524, 1267, 1268, 1278, 1280, 1281] {
        let mut halfwords = *good.as_halfwords();
        halfwords[any] ^= 0x8000;
        assert_eq!(State::from_halfwords(&halfwords).unwrap().as_halfwords(), &halfwords, "halfword {any}");
    }
    for length in [0, 1, State::HALFWORDS - 1] {
        assert_eq!(State::try_from(&good.as_halfwords()[..length]), Err(Refusal::State));
    }
}

#[test]
fn a_state_of_the_other_byte_order() {
    let state = composed(Size::K64, 1).state().clone();
    let swapped = state.as_halfwords().map(u16::swap_bytes);
    assert_eq!((state.as_halfwords()[0], swapped[0]), (0x5754, 0x5457));
    assert_eq!(State::from_halfwords(&swapped), Err(Refusal::State));
}

#[test]
fn block_views() {
    let spu = composed(Size::K64, 2);
    let view = spu.block_view(0x1000).unwrap();
    assert_eq!(view.as_ptr(), spu.ram()[0x1000..].as_ptr());
    assert_eq!(view[..2], BLOCK[0].to_le_bytes());
    assert!(spu.block_view(0xFFF0).is_ok());
    for address in [1, 4, 0xFFF8, 0x10000, 0xFFFF_FFF8] {
        assert_eq!(spu.block_view(address), Err(Refusal::Address));
    }
}

#[test]
fn chips_on_two_threads() {
    let alone = [4, 9].map(|blocks| play(&mut composed(Size::K64, blocks)));
    let beside = [4, 9].map(|blocks| thread::spawn(move || play(&mut composed(Size::K64, blocks))));
    assert_ne!(alone[0], alone[1]);
    assert_eq!(beside.map(|thread| thread.join().unwrap()), alone);
}

#[test]
fn bytes_loaded_past_the_chip() {
    let mut spu = composed(Size::K64, 1);
    spu.marks_mut().fill(0xFF);
    assert_eq!(play(&mut spu).1.doubt, None);
    spu.ram_mut()[0x8000] = 0x42;
    assert_eq!(spu.block_view(0x8000).unwrap()[0], 0x42);
}

#[test]
fn refusals_have_numbers_and_words() {
    assert_eq!((Refusal::Memory.number(), Refusal::Buffers.number()), (1, 25));
    let error: Box<dyn std::error::Error> = Box::new(Refusal::Count);
    assert_eq!(error.to_string(), "a transfer moves 1 to 32 halfwords");
    assert_eq!(Refusal::NotCarried.to_string(), "this register, or this value of it, is not carried");
    assert_eq!(Refusal::Undocumented.number(), 11);
}
