use core::fmt;

use crate::{ffi, Refusal};

/// A size of sound RAM.
#[derive(Debug, Clone, Copy, PartialEq, Eq, Hash)]
pub enum Size {
    /// 65,536 bytes.
    K64,
    /// 524,288 bytes.
    K512,
}

impl Size {
    /// Bytes of sound RAM.
    pub const fn ram_bytes(self) -> usize {
        match self {
            Size::K64 => 0x10000,
            Size::K512 => 0x80000,
        }
    }

    /// Bytes of marks: a bit for each halfword of sound RAM.
    pub const fn marks_bytes(self) -> usize {
        self.ram_bytes() / 16
    }
}

/// The whole chip except sound RAM and marks, as plain halfwords: copy it, save it, send it elsewhere.
///
/// A `State` is always a good one: it was made, or [`State::from_halfwords`] checked it. The first two halfwords name the
/// layout, so a state with another layout is refused, never misread.
///
/// ```
/// use tenonwhisk::{Refusal, Size, State};
///
/// let mut state = State::new(Size::K64);
/// state.write(0x180, 0x3FFF)?;
/// let saved = *state.as_halfwords();
/// assert_eq!(State::from_halfwords(&saved)?, state);
/// assert_eq!(State::from_halfwords(&saved[1..]), Err(Refusal::State));
/// # Ok::<(), Refusal>(())
/// ```
///
/// A file takes bytes. Saved with the low byte of each halfword first, a state loads on a machine of either byte order:
///
#[cfg_attr(feature = "alloc", doc = "```")]
#[cfg_attr(not(feature = "alloc"), doc = "```ignore")]
/// # use tenonwhisk::{Refusal, Size, State};
/// # let state = State::new(Size::K64);
/// let file: Vec<u8> = state.as_halfwords().iter().flat_map(|half| half.to_le_bytes()).collect();
///
/// let halfwords: Vec<u16> = file.chunks(2).map(|pair| u16::from_le_bytes([pair[0], pair[1]])).collect();
/// assert_eq!(State::from_halfwords(&halfwords)?, state);
/// # Ok::<(), Refusal>(())
/// ```
#[derive(Clone, PartialEq, Eq)]
pub struct State([u16; State::HALFWORDS]);

impl State {
    /// The length of a state in halfwords.
    pub const HALFWORDS: usize = 1284;

    /// Makes a fresh state.
    pub fn new(size: Size) -> State {
        let mut halfwords = [0; State::HALFWORDS];
        ffi::make(size.ram_bytes() as u32, &mut halfwords);
        State(halfwords)
    }

    /// Takes a saved state. Other halfwords, and a state with a field out of range, are refused.
    pub fn from_halfwords(halfwords: &[u16]) -> Result<State, Refusal> {
        let state = State(halfwords.try_into().map_err(|_| Refusal::State)?);
        Refusal::check(ffi::status(&state.0).number, state)
    }

    /// The halfwords to save.
    pub fn as_halfwords(&self) -> &[u16; State::HALFWORDS] {
        &self.0
    }

    pub(crate) fn halfwords_mut(&mut self) -> &mut [u16] {
        &mut self.0
    }

    /// The size of sound RAM that the state was made for.
    pub fn size(&self) -> Size {
        match ffi::status(&self.0).size {
            0x80000 => Size::K512,
            _ => Size::K64,
        }
    }

    /// Whether the sound may rest on bytes of sound RAM that nobody loaded. The doubt stays until a reset.
    pub fn doubt(&self) -> bool {
        ffi::status(&self.0).doubt
    }

    /// Ticks since the state was made or reset, modulo 2^32.
    pub fn tick_number(&self) -> u32 {
        ffi::status(&self.0).tick
    }

    /// Resets the state to a fresh one.
    pub fn reset(&mut self) {
        ffi::reset(&mut self.0);
    }

    /// Writes the register at an offset from 1F801C00h.
    pub fn write(&mut self, offset: u32, value: u16) -> Result<(), Refusal> {
        Refusal::check(ffi::write(&mut self.0, offset, value), ())
    }

    /// Reads the register at an offset from 1F801C00h.
    pub fn read(&self, offset: u32) -> Result<u16, Refusal> {
        let reading = ffi::read(&self.0, offset);
        Refusal::check(reading.number, reading.value)
    }
}

impl fmt::Debug for State {
    fn fmt(&self, f: &mut fmt::Formatter<'_>) -> fmt::Result {
        f.debug_struct("State")
            .field("size", &self.size())
            .field("tick_number", &self.tick_number())
            .field("doubt", &self.doubt())
            .finish_non_exhaustive()
    }
}

impl TryFrom<&[u16]> for State {
    type Error = Refusal;

    fn try_from(halfwords: &[u16]) -> Result<State, Refusal> {
        State::from_halfwords(halfwords)
    }
}

impl AsRef<[u16]> for State {
    fn as_ref(&self) -> &[u16] {
        &self.0
    }
}
