//! `tenonwhisk.h`: its declarations, and each call over slices.
//!
//! What the header asks of a caller holds of any slices: their pointers are not null and stand for as many elements as
//! their lengths say, and a mutable slice overlaps no other.

use core::ffi::c_float;

use crate::xa::Histories;

#[repr(C)]
pub struct Overview {
    pub number: u8,
    pub doubt: bool,
    pub size: u32,
    pub tick: u32,
}

#[repr(C)]
pub struct Reading {
    pub number: u8,
    pub value: u16,
}

#[repr(C)]
pub struct Moved {
    pub number: u8,
    pub irq: bool,
    pub doubt: bool,
    pub count: u32,
}

#[repr(C)]
pub struct Ticked<S> {
    pub number: u8,
    pub irq: bool,
    pub doubt: bool,
    pub left: S,
    pub right: S,
}

#[repr(C)]
pub struct Ran {
    pub number: u8,
    pub count: usize,
    pub irq: usize,
    pub doubt: usize,
}

#[repr(C)]
pub struct Found {
    pub number: u8,
    pub house: bool,
    pub entry: u32,
    pub offset: usize,
    pub length: usize,
}

#[repr(C)]
pub struct Damage {
    pub number: u8,
    pub place: u8,
    pub entry: u32,
}

#[repr(C)]
pub struct Fields {
    pub number: u8,
    pub kind: u16,
    pub offset: u32,
    pub count: u32,
}

#[repr(C)]
pub struct Written {
    pub number: u8,
    pub length: usize,
}

#[repr(C)]
pub struct Decoded {
    pub number: u8,
    pub histories: Histories,
}

#[repr(C)]
pub struct Verdict {
    pub number: u8,
    pub yes: bool,
    pub unpaired: bool,
    pub end_flag: bool,
    pub filter: bool,
    pub block: usize,
    pub sample: usize,
}

#[rustfmt::skip]
unsafe extern "C" {
    fn tenonwhisk_make(size: u32, state: *mut u16, state_len: usize) -> u8;
    fn tenonwhisk_reset(state: *mut u16, state_len: usize) -> u8;
    fn tenonwhisk_status(state: *const u16, state_len: usize) -> Overview;
    fn tenonwhisk_write(state: *mut u16, state_len: usize, offset: u32, value: u16) -> u8;
    fn tenonwhisk_read(state: *const u16, state_len: usize, offset: u32) -> Reading;
    fn tenonwhisk_transfer_in(
        state: *mut u16, state_len: usize, ram: *mut u8, ram_len: usize, marks: *mut u8, marks_len: usize,
        values: *const u16, values_len: usize,
    ) -> Moved;
    fn tenonwhisk_transfer_out(
        state: *mut u16, state_len: usize, ram: *const u8, ram_len: usize, marks: *const u8, marks_len: usize,
        out: *mut u16, out_len: usize,
    ) -> Moved;
    fn tenonwhisk_tick(
        state: *mut u16, state_len: usize, ram: *mut u8, ram_len: usize, marks: *mut u8, marks_len: usize,
        cd_left: i16, cd_right: i16,
    ) -> Ticked<i16>;
    fn tenonwhisk_tick_floats(
        state: *mut u16, state_len: usize, ram: *mut u8, ram_len: usize, marks: *mut u8, marks_len: usize,
        cd_left: i16, cd_right: i16,
    ) -> Ticked<c_float>;
    fn tenonwhisk_run(
        state: *mut u16, state_len: usize, ram: *mut u8, ram_len: usize, marks: *mut u8, marks_len: usize,
        cd: *const i16, cd_len: usize, out: *mut i16, out_len: usize,
    ) -> Ran;
    fn tenonwhisk_run_floats(
        state: *mut u16, state_len: usize, ram: *mut u8, ram_len: usize, marks: *mut u8, marks_len: usize,
        cd: *const i16, cd_len: usize, out: *mut i16, out_len: usize, floats: *mut c_float, floats_len: usize,
    ) -> Ran;
    fn tenonwhisk_view_number(
        state: *const u16, state_len: usize, ram: *const u8, ram_len: usize, address: u32,
    ) -> u8;
    fn tenonwhisk_bank_find(
        title: *const u8, title_len: usize, house: *const u8, house_len: usize, number: u32,
    ) -> Found;
    fn tenonwhisk_bank_check(bank: *const u8, bank_len: usize) -> Damage;
    fn tenonwhisk_bank_entry(bank: *const u8, bank_len: usize, n: u32) -> Fields;
    fn tenonwhisk_bank_write(
        kinds: *const u16, kinds_len: usize, offsets: *const u32, offsets_len: usize,
        counts: *const u32, counts_len: usize, data: *const u8, data_len: usize, out: *mut u8, out_len: usize,
    ) -> Written;
    fn tenonwhisk_xa_fresh() -> Histories;
    fn tenonwhisk_xa_decode(
        sector: *const u8, sector_len: usize, stereo: bool, eight_bit: bool, histories: Histories,
        out: *mut i16, out_len: usize,
    ) -> Decoded;
    fn tenonwhisk_encoder_check(
        originals: *const i16, originals_len: usize, blocks: *const u8, blocks_len: usize, largest: u16,
    ) -> Verdict;
}

pub fn make(size: u32, state: &mut [u16]) -> u8 {
    // SAFETY: the pointer and the length are those of a slice.
    unsafe { tenonwhisk_make(size, state.as_mut_ptr(), state.len()) }
}

pub fn reset(state: &mut [u16]) -> u8 {
    // SAFETY: the pointer and the length are those of a slice.
    unsafe { tenonwhisk_reset(state.as_mut_ptr(), state.len()) }
}

pub fn status(state: &[u16]) -> Overview {
    // SAFETY: the pointer and the length are those of a slice, which is only read.
    unsafe { tenonwhisk_status(state.as_ptr(), state.len()) }
}

pub fn write(state: &mut [u16], offset: u32, value: u16) -> u8 {
    // SAFETY: the pointer and the length are those of a slice.
    unsafe { tenonwhisk_write(state.as_mut_ptr(), state.len(), offset, value) }
}

pub fn read(state: &[u16], offset: u32) -> Reading {
    // SAFETY: the pointer and the length are those of a slice, which is only read.
    unsafe { tenonwhisk_read(state.as_ptr(), state.len(), offset) }
}

pub fn transfer_in(state: &mut [u16], ram: &mut [u8], marks: &mut [u8], values: &[u16]) -> Moved {
    // SAFETY: pointers and lengths are those of slices, which do not overlap; `values` is only read.
    unsafe {
        tenonwhisk_transfer_in(
            state.as_mut_ptr(),
            state.len(),
            ram.as_mut_ptr(),
            ram.len(),
            marks.as_mut_ptr(),
            marks.len(),
            values.as_ptr(),
            values.len(),
        )
    }
}

pub fn transfer_out(state: &mut [u16], ram: &[u8], marks: &[u8], out: &mut [u16]) -> Moved {
    // SAFETY: pointers and lengths are those of slices; those that are written overlap no other.
    unsafe {
        tenonwhisk_transfer_out(
            state.as_mut_ptr(),
            state.len(),
            ram.as_ptr(),
            ram.len(),
            marks.as_ptr(),
            marks.len(),
            out.as_mut_ptr(),
            out.len(),
        )
    }
}

pub fn tick(state: &mut [u16], ram: &mut [u8], marks: &mut [u8], cd_left: i16, cd_right: i16) -> Ticked<i16> {
    // SAFETY: pointers and lengths are those of slices, which do not overlap.
    unsafe {
        tenonwhisk_tick(
            state.as_mut_ptr(),
            state.len(),
            ram.as_mut_ptr(),
            ram.len(),
            marks.as_mut_ptr(),
            marks.len(),
            cd_left,
            cd_right,
        )
    }
}

pub fn tick_floats(state: &mut [u16], ram: &mut [u8], marks: &mut [u8], cd_left: i16, cd_right: i16) -> Ticked<f32> {
    // SAFETY: pointers and lengths are those of slices, which do not overlap.
    unsafe {
        tenonwhisk_tick_floats(
            state.as_mut_ptr(),
            state.len(),
            ram.as_mut_ptr(),
            ram.len(),
            marks.as_mut_ptr(),
            marks.len(),
            cd_left,
            cd_right,
        )
    }
}

pub fn run(state: &mut [u16], ram: &mut [u8], marks: &mut [u8], cd: &[i16], out: &mut [i16]) -> Ran {
    // SAFETY: pointers and lengths are those of slices, which do not overlap; `cd` is only read.
    unsafe {
        tenonwhisk_run(
            state.as_mut_ptr(),
            state.len(),
            ram.as_mut_ptr(),
            ram.len(),
            marks.as_mut_ptr(),
            marks.len(),
            cd.as_ptr(),
            cd.len(),
            out.as_mut_ptr(),
            out.len(),
        )
    }
}

pub fn run_floats(
    state: &mut [u16],
    ram: &mut [u8],
    marks: &mut [u8],
    cd: &[i16],
    out: &mut [i16],
    floats: &mut [f32],
) -> Ran {
    // SAFETY: pointers and lengths are those of slices, which do not overlap; `cd` is only read.
    unsafe {
        tenonwhisk_run_floats(
            state.as_mut_ptr(),
            state.len(),
            ram.as_mut_ptr(),
            ram.len(),
            marks.as_mut_ptr(),
            marks.len(),
            cd.as_ptr(),
            cd.len(),
            out.as_mut_ptr(),
            out.len(),
            floats.as_mut_ptr(),
            floats.len(),
        )
    }
}

pub fn view_number(state: &[u16], ram: &[u8], address: u32) -> u8 {
    // SAFETY: pointers and lengths are those of slices, which are only read.
    unsafe { tenonwhisk_view_number(state.as_ptr(), state.len(), ram.as_ptr(), ram.len(), address) }
}

pub fn bank_find(title: &[u8], house: &[u8], number: u32) -> Found {
    // SAFETY: pointers and lengths are those of slices, which are only read.
    unsafe { tenonwhisk_bank_find(title.as_ptr(), title.len(), house.as_ptr(), house.len(), number) }
}

pub fn bank_check(bank: &[u8]) -> Damage {
    // SAFETY: the pointer and the length are those of a slice, which is only read.
    unsafe { tenonwhisk_bank_check(bank.as_ptr(), bank.len()) }
}

pub fn bank_entry(bank: &[u8], n: u32) -> Fields {
    // SAFETY: the pointer and the length are those of a slice, which is only read.
    unsafe { tenonwhisk_bank_entry(bank.as_ptr(), bank.len(), n) }
}

pub fn bank_write(kinds: &[u16], offsets: &[u32], counts: &[u32], data: &[u8], out: &mut [u8]) -> Written {
    // SAFETY: pointers and lengths are those of slices; `out`, which is written, overlaps no other.
    unsafe {
        tenonwhisk_bank_write(
            kinds.as_ptr(),
            kinds.len(),
            offsets.as_ptr(),
            offsets.len(),
            counts.as_ptr(),
            counts.len(),
            data.as_ptr(),
            data.len(),
            out.as_mut_ptr(),
            out.len(),
        )
    }
}

pub fn xa_fresh() -> Histories {
    // SAFETY: the call takes nothing.
    unsafe { tenonwhisk_xa_fresh() }
}

pub fn xa_decode(sector: &[u8], stereo: bool, eight_bit: bool, histories: Histories, out: &mut [i16]) -> Decoded {
    // SAFETY: pointers and lengths are those of slices, which do not overlap; `sector` is only read.
    unsafe {
        tenonwhisk_xa_decode(sector.as_ptr(), sector.len(), stereo, eight_bit, histories, out.as_mut_ptr(), out.len())
    }
}

pub fn encoder_check(originals: &[i16], blocks: &[u8], largest: u16) -> Verdict {
    // SAFETY: pointers and lengths are those of slices, which are only read.
    unsafe { tenonwhisk_encoder_check(originals.as_ptr(), originals.len(), blocks.as_ptr(), blocks.len(), largest) }
}
