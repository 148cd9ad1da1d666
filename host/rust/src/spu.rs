#[cfg(feature = "alloc")]
use alloc::{vec, vec::Vec};
use core::fmt;

#[cfg(feature = "alloc")]
use crate::Size;
use crate::{ffi, Refusal, Rejected, State};

/// What a transfer did.
#[derive(Debug, Clone, Copy, PartialEq, Eq)]
#[non_exhaustive]
pub struct Moved {
    /// Halfwords that were moved.
    pub count: usize,
    /// Whether it raised the interrupt.
    pub irq: bool,
    /// Whether it raised the doubt: it was the first since a reset to read a halfword that nobody loaded.
    pub doubt: bool,
}

/// What a tick gave: its pair of samples, [`i16`] or [`f32`].
#[derive(Debug, Clone, Copy, PartialEq)]
#[non_exhaustive]
pub struct Ticked<S> {
    /// The left sample.
    pub left: S,
    /// The right sample.
    pub right: S,
    /// Whether it raised the interrupt.
    pub irq: bool,
    /// Whether it raised the doubt: from this tick on the sound may rest on memory that nobody loaded.
    pub doubt: bool,
}

/// What a run of ticks gave besides its samples. Ticks are counted from 0 within the run.
#[derive(Debug, Clone, Copy, PartialEq, Eq)]
#[non_exhaustive]
pub struct Ran {
    /// How many ticks were made, a pair of samples each.
    pub count: usize,
    /// The tick that raised the interrupt, if one did.
    pub irq: Option<usize>,
    /// The tick that raised the doubt, if one did.
    pub doubt: Option<usize>,
}

/// The sound chip: a [`State`] with sound RAM and marks.
///
/// `M` holds RAM and marks. It is `Vec<u8>` if the chip owns them (`Spu::new`), `&mut [u8]` if they are lent
/// ([`Spu::with_memory`]), or any other kind of bytes. Bit `h % 8` of the marks' byte `h / 8` says that the halfword of
/// RAM at address `2 * h` is loaded. The lengths are checked once, so a tick is refused only if an `M` of an unusual kind
/// changes its length later.
///
/// Chips share nothing: any number of them run side by side, on any threads. No call uses more than 40 KiB of stack.
///
#[cfg_attr(feature = "alloc", doc = "```")]
#[cfg_attr(not(feature = "alloc"), doc = "```ignore")]
/// use tenonwhisk::{Refusal, Size, Spu};
///
/// let mut spu = Spu::new(Size::K64);
/// spu.write(0x180, 0x3FFF)?; // main volume, left
/// spu.write(0x182, 0x3FFF)?; // and right
/// spu.write(0x1AA, 0xC010)?; // SPUCNT: on, heard, transfers inward from the next tick on
/// let ticked = spu.tick(0, 0)?;
/// assert_eq!((ticked.left, ticked.right), (0, 0));
///
/// spu.write(0x1A6, 0x200)?; // transfer address, in units of 8 bytes
/// assert_eq!(spu.transfer_in(&[0x0700, 0x7777])?.count, 2);
/// assert_eq!(spu.block_view(0x1000)?[..4], [0x00, 0x07, 0x77, 0x77]);
///
/// let mut out = [0; 2 * 441];
/// assert_eq!(spu.run(&[], &mut out)?.count, 441); // a hundredth of a second, without CD
/// assert_eq!(spu.tick_number(), 442);
/// # Ok::<(), Refusal>(())
/// ```
#[derive(Clone)]
pub struct Spu<#[cfg(feature = "alloc")] M = Vec<u8>, #[cfg(not(feature = "alloc"))] M> {
    state: State,
    ram: M,
    marks: M,
}

#[cfg(feature = "alloc")]
impl Spu {
    /// Makes a fresh chip that owns its memory. RAM and marks are zero.
    pub fn new(size: Size) -> Spu {
        Spu { state: State::new(size), ram: vec![0; size.ram_bytes()], marks: vec![0; size.marks_bytes()] }
    }
}

impl<M: AsRef<[u8]> + AsMut<[u8]>> Spu<M> {
    /// Makes a chip over memory that is handed in. RAM and marks must have the lengths that the state's size asks for; if
    /// not, [`Rejected`] gives everything back.
    ///
    /// ```
    /// use tenonwhisk::{Refusal, Size, Spu, State};
    ///
    /// let (mut ram, mut marks) = ([0; 65536], [0; 4096]);
    /// let mut spu = Spu::with_memory(State::new(Size::K64), &mut ram[..], &mut marks[..])?;
    /// spu.tick(0, 0)?;
    /// let (state, ..) = spu.into_parts();
    /// assert_eq!(marks[0], 1); // the tick captured a CD sample at address 0
    ///
    /// let rejected = Spu::with_memory(state, &mut ram[1..], &mut marks[..]).unwrap_err();
    /// assert_eq!(rejected.refusal, Refusal::Memory);
    /// assert_eq!(rejected.ram.len(), 65535);
    /// # Ok::<(), Refusal>(())
    /// ```
    #[allow(clippy::result_large_err)] // it gives back what came in by value
    pub fn with_memory(state: State, ram: M, marks: M) -> Result<Spu<M>, Rejected<M>> {
        let size = state.size();
        if ram.as_ref().len() != size.ram_bytes() || marks.as_ref().len() != size.marks_bytes() {
            return Err(Rejected { refusal: Refusal::Memory, state, ram, marks });
        }
        Ok(Spu { state, ram, marks })
    }

    /// Gives back the state, RAM and marks.
    pub fn into_parts(self) -> (State, M, M) {
        (self.state, self.ram, self.marks)
    }

    /// The state, to look at, to save or to clone.
    pub fn state(&self) -> &State {
        &self.state
    }

    /// Goes on from another state, such as a saved one. A state for another size is refused.
    pub fn set_state(&mut self, state: State) -> Result<(), Refusal> {
        if state.size() != self.state.size() {
            return Err(Refusal::Memory);
        }
        self.state = state;
        Ok(())
    }

    /// Sound RAM.
    pub fn ram(&self) -> &[u8] {
        self.ram.as_ref()
    }

    /// Sound RAM, to change it past the chip. Bytes that come in this way count as loaded only if their marks are set
    /// through [`Spu::marks_mut`].
    pub fn ram_mut(&mut self) -> &mut [u8] {
        self.ram.as_mut()
    }

    /// The marks.
    pub fn marks(&self) -> &[u8] {
        self.marks.as_ref()
    }

    /// The marks, to change them past the chip.
    pub fn marks_mut(&mut self) -> &mut [u8] {
        self.marks.as_mut()
    }

    /// Whether the sound may rest on bytes of sound RAM that nobody loaded. The doubt stays until a reset.
    pub fn doubt(&self) -> bool {
        self.state.doubt()
    }

    /// Ticks since the state was made or reset, modulo 2^32.
    pub fn tick_number(&self) -> u32 {
        self.state.tick_number()
    }

    /// Resets the state to a fresh one. RAM and marks stay.
    pub fn reset(&mut self) {
        self.state.reset();
    }

    /// Writes the register at an offset from 1F801C00h.
    ///
    /// A value that sets a bit which nobody has documented is refused ([`Refusal::Undocumented`]): write such bits
    /// as 0.
    pub fn write(&mut self, offset: u32, value: u16) -> Result<(), Refusal> {
        self.state.write(offset, value)
    }

    /// Reads the register at an offset from 1F801C00h.
    pub fn read(&self, offset: u32) -> Result<u16, Refusal> {
        self.state.read(offset)
    }

    /// Moves 1 to 32 halfwords to sound RAM, at the transfer address, and marks them.
    ///
    /// SPUCNT's transfer mode (bits 5-4) must have been 1 or 2 at the last tick.
    pub fn transfer_in(&mut self, values: &[u16]) -> Result<Moved, Refusal> {
        moved(ffi::transfer_in(self.state.halfwords_mut(), self.ram.as_mut(), self.marks.as_mut(), values))
    }

    /// Moves 1 to 32 halfwords from sound RAM, at the transfer address, to `out`: as many as it holds.
    ///
    /// SPUCNT's transfer mode (bits 5-4) must have been 3 at the last tick.
    pub fn transfer_out(&mut self, out: &mut [u16]) -> Result<Moved, Refusal> {
        moved(ffi::transfer_out(self.state.halfwords_mut(), self.ram.as_ref(), self.marks.as_ref(), out))
    }

    /// Makes one tick, 1/44100 s, with a pair of CD samples.
    pub fn tick(&mut self, cd_left: i16, cd_right: i16) -> Result<Ticked<i16>, Refusal> {
        let state = self.state.halfwords_mut();
        ticked(ffi::tick(state, self.ram.as_mut(), self.marks.as_mut(), cd_left, cd_right))
    }

    /// Does what [`Spu::tick`] does, and returns each sample divided by 32768.
    pub fn tick_floats(&mut self, cd_left: i16, cd_right: i16) -> Result<Ticked<f32>, Refusal> {
        let state = self.state.halfwords_mut();
        ticked(ffi::tick_floats(state, self.ram.as_mut(), self.marks.as_mut(), cd_left, cd_right))
    }

    /// Makes a tick for each pair of `out` (left, right, left, ..). `cd` holds as many pairs of CD samples, or is empty
    /// for no CD: then every CD sample is zero.
    pub fn run(&mut self, cd: &[i16], out: &mut [i16]) -> Result<Ran, Refusal> {
        ran(ffi::run(self.state.halfwords_mut(), self.ram.as_mut(), self.marks.as_mut(), cd, out))
    }

    /// Does what [`Spu::run`] does, and writes each sample divided by 32768 to `floats` too, which is as long as `out`.
    pub fn run_floats(&mut self, cd: &[i16], out: &mut [i16], floats: &mut [f32]) -> Result<Ran, Refusal> {
        ran(ffi::run_floats(self.state.halfwords_mut(), self.ram.as_mut(), self.marks.as_mut(), cd, out, floats))
    }

    /// The sixteen bytes of the block at an address of sound RAM, which is a multiple of 8: the chip's own RAM, not a
    /// copy.
    ///
    /// A view is a borrow, so the chip cannot go on while it is held:
    ///
    /// ```compile_fail,E0502
    /// # use tenonwhisk::{Size, Spu};
    /// let mut spu = Spu::new(Size::K64);
    /// let view = spu.block_view(0).unwrap();
    /// spu.tick(0, 0).unwrap();
    /// println!("{view:?}");
    /// ```
    ///
    /// and it does not outlive the memory:
    ///
    /// ```compile_fail,E0597
    /// # use tenonwhisk::{Size, Spu};
    /// let view = {
    ///     let spu = Spu::new(Size::K64);
    ///     spu.block_view(0).unwrap()
    /// };
    /// println!("{view:?}");
    /// ```
    pub fn block_view(&self, address: u32) -> Result<&[u8; 16], Refusal> {
        let ram = self.ram.as_ref();
        Refusal::check(ffi::view_number(self.state.as_halfwords(), ram, address), ())?;
        let at = usize::try_from(address).map_err(|_| Refusal::Address)?;
        ram.get(at..).and_then(<[u8]>::first_chunk).ok_or(Refusal::Address)
    }
}

impl<M: AsRef<[u8]>> fmt::Debug for Spu<M> {
    fn fmt(&self, f: &mut fmt::Formatter<'_>) -> fmt::Result {
        f.debug_struct("Spu")
            .field("state", &self.state)
            .field("ram_bytes", &self.ram.as_ref().len())
            .field("marks_bytes", &self.marks.as_ref().len())
            .finish_non_exhaustive()
    }
}

fn moved(moved: ffi::Moved) -> Result<Moved, Refusal> {
    Refusal::check(moved.number, Moved { count: moved.count as usize, irq: moved.irq, doubt: moved.doubt })
}

fn ticked<S>(ticked: ffi::Ticked<S>) -> Result<Ticked<S>, Refusal> {
    let ffi::Ticked { number, irq, doubt, left, right } = ticked;
    Refusal::check(number, Ticked { left, right, irq, doubt })
}

fn ran(ran: ffi::Ran) -> Result<Ran, Refusal> {
    let tick = |tick| (tick < ran.count).then_some(tick);
    Refusal::check(ran.number, Ran { count: ran.count, irq: tick(ran.irq), doubt: tick(ran.doubt) })
}
