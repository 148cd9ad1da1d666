//! Sound banks: a file of sounds, numbered from 0, as studios hand it over.
//!
//! A bank has a header, which says where each sound stands, and data. Every number is stored low byte first. The header
//! holds the number of entries (16 bits, at most [`MOST_ENTRIES`]) and then the entries, [`Entry`], 10 bytes each. An
//! entry is a sound or an alias, another number for an entry before it. Anything else is [`Damage`].
//!
//! [`lookup`] takes two banks, the title's and the house's. A sound comes from the title's bank or, if that has no entry
//! with its number, from the house's. A host with one bank takes [`EMPTY`] for the other. A call uses up to 40 KiB of
//! stack.
//!
//! ```
//! use tenonwhisk::bank::{self, Entry};
//! use tenonwhisk::Refusal;
//!
//! // Two entries make a header of 22 bytes, so a sound can begin at byte 32: the data has 10 bytes before it.
//! let entries = [Entry::sound(32, 1), Entry::alias(0)];
//! let mut data = [0; 26];
//! data[10..].fill(7);
//! let mut title = [0; bank::length(2, 26)];
//! assert_eq!(bank::write(&entries, &data, &mut title)?, 48);
//! assert_eq!(bank::check(&title), Ok(()));
//!
//! assert_eq!(bank::lookup(&title, bank::EMPTY, 1)?, [7; 16]);
//! assert_eq!(bank::lookup(&title, bank::EMPTY, 2), Err(Refusal::NoEntry));
//! # Ok::<(), Refusal>(())
//! ```

use core::error::Error;
use core::fmt;

use crate::{ffi, Refusal};

/// The most entries of a bank.
pub const MOST_ENTRIES: usize = 1024;

/// A bank of no entries, for a host that has only one bank.
pub const EMPTY: &[u8] = &[0, 0];

/// The length of a bank with so many entries and bytes of data: what [`write()`] needs room for.
pub const fn length(entries: usize, data: usize) -> usize {
    2 + 10 * entries + data
}

/// An entry of a bank, as it stands there. It need not be a good one.
#[derive(Debug, Clone, Copy, PartialEq, Eq, Hash)]
pub struct Entry {
    /// [`Entry::SOUND`], [`Entry::ALIAS`], or a number that is damage.
    pub kind: u16,
    /// Of a sound: where it begins, in bytes from the bank's start, a multiple of 16 after the header. Of an alias: the
    /// number of an entry before it.
    pub offset: u32,
    /// Of a sound: its blocks of 16 bytes, at least one. Of an alias: 0.
    pub count: u32,
}

impl Entry {
    /// The kind of a sound.
    pub const SOUND: u16 = 0;
    /// The kind of an alias.
    pub const ALIAS: u16 = 1;

    /// A sound of so many blocks.
    pub const fn sound(offset: u32, blocks: u32) -> Entry {
        Entry { kind: Entry::SOUND, offset, count: blocks }
    }

    /// Another number for an entry that stands before it.
    pub const fn alias(of: u32) -> Entry {
        Entry { kind: Entry::ALIAS, offset: of, count: 0 }
    }
}

/// Whose bank a sound comes from.
#[derive(Debug, Clone, Copy, PartialEq, Eq, Hash)]
pub enum Owner {
    /// The title's bank.
    Title,
    /// The house's bank.
    House,
}

/// Where a sound stands.
#[derive(Debug, Clone, Copy, PartialEq, Eq, Hash)]
#[non_exhaustive]
pub struct Found {
    /// Whose bank.
    pub owner: Owner,
    /// The sound's own entry: the one that was asked for, or the one that its aliases lead to.
    pub entry: u32,
    /// Its first byte, from the bank's start.
    pub offset: usize,
    /// Its length in bytes, 16 for each block.
    pub length: usize,
}

/// Where a bank is damaged first.
#[derive(Debug, Clone, Copy, PartialEq, Eq, Hash)]
pub enum Damage {
    /// In its header: shorter than 2 bytes, more than [`MOST_ENTRIES`] entries, or shorter than its header.
    Header,
    /// At this entry.
    Entry(u32),
}

impl fmt::Display for Damage {
    fn fmt(&self, f: &mut fmt::Formatter<'_>) -> fmt::Result {
        match self {
            Damage::Header => f.write_str("the header is damaged"),
            Damage::Entry(n) => write!(f, "entry {n} is damaged"),
        }
    }
}

impl Error for Damage {}

/// The bytes of the sound with a number: a part of the title's bank or of the house's, not a copy. [`find`] says which.
///
/// A sound is a borrow of its bank, so it does not outlive it:
///
/// ```compile_fail,E0597
/// # use tenonwhisk::bank;
/// let sound = {
///     let house = vec![0; 100];
///     bank::lookup(bank::EMPTY, &house, 0)
/// };
/// println!("{sound:?}");
/// ```
///
/// and the bank cannot change while the sound is held:
///
/// ```compile_fail,E0506
/// # use tenonwhisk::bank;
/// let mut title = [0; 100];
/// let sound = bank::lookup(&title, bank::EMPTY, 0);
/// title[0] = 1;
/// println!("{sound:?}");
/// ```
pub fn lookup<'a>(title: &'a [u8], house: &'a [u8], number: u32) -> Result<&'a [u8], Refusal> {
    let found = find(title, house, number)?;
    let bank = match found.owner {
        Owner::Title => title,
        Owner::House => house,
    };
    bank.get(found.offset..).and_then(|rest| rest.get(..found.length)).ok_or(Refusal::Bank)
}

/// Where the sound with a number stands: in the title's bank or, if that has no entry with this number, in the house's.
/// An alias leads to a sound of its own bank. Both banks must be good, even the one that is not needed.
pub fn find(title: &[u8], house: &[u8], number: u32) -> Result<Found, Refusal> {
    let ffi::Found { number, house, entry, offset, length } = ffi::bank_find(title, house, number);
    let owner = if house { Owner::House } else { Owner::Title };
    Refusal::check(number, Found { owner, entry, offset, length })
}

/// Says whether a bank is damaged, and where first.
pub fn check(bank: &[u8]) -> Result<(), Damage> {
    let ffi::Damage { number, place, entry } = ffi::bank_check(bank);
    match (number, place) {
        (0, _) => Ok(()),
        (_, 1) => Err(Damage::Header),
        _ => Err(Damage::Entry(entry)),
    }
}

/// Reads entry `n` as it stands in the bank, good or damaged. It is refused if the header is damaged
/// ([`Refusal::Bank`]) or the bank has no entry `n` ([`Refusal::NoEntry`]).
pub fn entry(bank: &[u8], n: u32) -> Result<Entry, Refusal> {
    let ffi::Fields { number, kind, offset, count } = ffi::bank_entry(bank, n);
    Refusal::check(number, Entry { kind, offset, count })
}

/// All entries as they stand in the bank, good or damaged; none if the header is damaged.
pub fn entries(bank: &[u8]) -> impl Iterator<Item = Entry> + '_ {
    (0..).map_while(|n| entry(bank, n).ok())
}

/// Writes a bank to `out`, its header and then `data` as it is, and returns its length. Bytes of `out` past the bank
/// stay.
///
/// It adds no padding: `data` begins with the bytes between the header and the first sound. It is refused if the bank
/// would be damaged ([`Refusal::Bank`]) or `out` is shorter than [`length`] says ([`Refusal::Room`]).
pub fn write(entries: &[Entry], data: &[u8], out: &mut [u8]) -> Result<usize, Refusal> {
    const ENTRIES: usize = MOST_ENTRIES + 1; // one too many is enough for the refusal
    let entries = &entries[..entries.len().min(ENTRIES)];
    let (mut kinds, mut offsets, mut counts) = ([0; ENTRIES], [0; ENTRIES], [0; ENTRIES]);
    for (k, entry) in entries.iter().enumerate() {
        (kinds[k], offsets[k], counts[k]) = (entry.kind, entry.offset, entry.count);
    }
    let of_entries = ..entries.len();
    let written = ffi::bank_write(&kinds[of_entries], &offsets[of_entries], &counts[of_entries], data, out);
    Refusal::check(written.number, written.length)
}
