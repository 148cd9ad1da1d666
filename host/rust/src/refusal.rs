use core::error::Error;
use core::fmt;

/// Why a call was refused. A refused call changes nothing.
///
/// Where several reasons apply, the call returns the one with the lowest number, except that
/// [`Undocumented`](Refusal::Undocumented) goes before [`NotCarried`](Refusal::NotCarried), and that the three of XA
/// sectors go the other way: 14, 13, 12.
#[derive(Debug, Clone, Copy, PartialEq, Eq, Hash)]
#[non_exhaustive]
pub enum Refusal {
    /// 1: sound RAM or marks do not have the size that the state was made for.
    Memory = 1,
    /// 2: the halfwords are not a state, or a field of the state is out of range.
    State = 2,
    /// 3: the register offset is odd or not listed.
    Offset = 3,
    /// 4: a write to a register that can only be read.
    ReadOnly = 4,
    /// 5: the register, or this value of it, is not carried.
    NotCarried = 5,
    /// 6: another transfer mode is applied.
    Mode = 6,
    /// 7: a transfer of no halfwords, or of more than 32.
    Count = 7,
    /// 8: the block address is not a multiple of 8, or fewer than 16 bytes follow.
    Address = 8,
    /// 9: a sound bank is damaged, or the entries handed in would make a damaged one.
    Bank = 9,
    /// 10: no bank that was handed in has an entry with this number.
    NoEntry = 10,
    /// 11: a write sets a bit that nobody has documented: bit 13 of a voice's +Ah, bits 15-8 of 18Ah,
    /// 18Eh, 192h, 196h and 19Ah, or bits 15-4 and 0 of 1ACh.
    Undocumented = 11,
    /// 12: header bytes of an XA sector differ from their copies.
    XaCopies = 12,
    /// 13: XA samples of 8 bits, which are not decoded.
    XaEightBit = 13,
    /// 14: an XA sector, or the buffer for its samples, of another length.
    XaLength = 14,
    /// 23: originals or encoded bytes that do not make whole blocks.
    Encoder = 23,
    /// 24: the buffer is shorter than the sound bank to be written.
    Room = 24,
    /// 25: the buffers of a run do not hold whole pairs, or have different lengths.
    Buffers = 25,
}

impl Refusal {
    /// The number that the C interface returns.
    pub fn number(self) -> u8 {
        self as u8
    }

    /// `value`, if the number is 0.
    pub(crate) fn check<T>(number: u8, value: T) -> Result<T, Refusal> {
        Err(match number {
            0 => return Ok(value),
            1 => Refusal::Memory,
            2 => Refusal::State,
            3 => Refusal::Offset,
            4 => Refusal::ReadOnly,
            5 => Refusal::NotCarried,
            6 => Refusal::Mode,
            7 => Refusal::Count,
            8 => Refusal::Address,
            9 => Refusal::Bank,
            10 => Refusal::NoEntry,
            11 => Refusal::Undocumented,
            12 => Refusal::XaCopies,
            13 => Refusal::XaEightBit,
            14 => Refusal::XaLength,
            23 => Refusal::Encoder,
            24 => Refusal::Room,
            25 => Refusal::Buffers,
            _ => unreachable!("the library gives no other number"),
        })
    }
}

/// The words of `tenonwhisk_words`.
impl fmt::Display for Refusal {
    fn fmt(&self, f: &mut fmt::Formatter<'_>) -> fmt::Result {
        f.write_str(match self {
            Refusal::Memory => {
                "sound RAM or marks do not have the size that the state was made for \
                 (RAM 65,536 or 524,288 bytes, marks a sixteenth)"
            }
            Refusal::State => "the halfwords are not a state, or a field of the state is out of range",
            Refusal::Offset => "there is no register at this offset",
            Refusal::ReadOnly => "this register can only be read",
            Refusal::NotCarried => "this register, or this value of it, is not carried",
            Refusal::Mode => {
                "another transfer mode is applied (SPUCNT bits 5-4 act from the next tick on); \
                 mode 1 or 2 moves inward, 3 outward"
            }
            Refusal::Count => "a transfer moves 1 to 32 halfwords",
            Refusal::Address => {
                "no block begins at this address: it is not a multiple of 8, or fewer than 16 bytes follow"
            }
            Refusal::Bank => "a sound bank is damaged, or the entries handed in would make a damaged one",
            Refusal::NoEntry => "there is no entry with this number",
            Refusal::Undocumented => {
                "the value sets a bit that nobody has documented (bit 13 of a voice's +Ah; \
                 bits 15-8 of 18Ah, 18Eh, 192h, 196h, 19Ah; bits 15-4 and 0 of 1ACh)"
            }
            Refusal::XaCopies => "the XA sector is damaged: header bytes of a sound group differ from their copies",
            Refusal::XaEightBit => "XA samples of 8 bits are not decoded, only those of 4 bits",
            Refusal::XaLength => "an XA sector is 2,304 bytes, and its samples are 4,032",
            Refusal::Encoder => {
                "a block is 16 bytes for 28 samples: the originals or the encoded bytes do not make whole blocks"
            }
            Refusal::Room => "the buffer is shorter than the sound bank to be written",
            Refusal::Buffers => "the buffers do not hold whole pairs, or have different lengths",
        })
    }
}

impl Error for Refusal {}
