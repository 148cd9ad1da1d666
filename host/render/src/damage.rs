//! What is wrong with a damaged sound bank, in plain words. The core says where a bank is damaged first; the words here
//! say why, and which other entries are damaged.

use tenonwhisk::bank::{self, Damage, Entry, MOST_ENTRIES};

use crate::words::counted;

const BLOCK_BYTES: u64 = 16;

/// Where a bank is damaged first, and why; `None` if it is good.
pub fn first(bank: &[u8]) -> Option<String> {
    let damage = bank::check(bank).err()?;
    let why = match damage {
        Damage::Header => of_header(bank),
        Damage::Entry(n) => bank::entry(bank, n).map_or(String::new(), |entry| Shape::of(bank).faults(n, entry)),
    };
    Some(format!("{damage}: {why}"))
}

/// Which rule of a header is broken.
fn of_header(bank: &[u8]) -> String {
    let length = bank.len();
    let Some(count) = bank.first_chunk().map(|&count| u16::from_le_bytes(count)) else {
        let has = if length == 0 { "the file is empty".to_owned() } else { "the file has 1 byte".to_owned() };
        return format!("{has}, but the number of entries takes 2 bytes");
    };
    if usize::from(count) > MOST_ENTRIES {
        return format!("it counts {count} entries, but a bank has at most {MOST_ENTRIES}");
    }
    let header = bank::length(count.into(), 0);
    let (entries, has) = (counted(count.into(), "entry", "entries"), counted(length as u64, "byte", "bytes"));
    format!("it takes {header} bytes for {entries}, but the file has {has}")
}

/// What the entries of a bank are judged against.
pub struct Shape {
    header: u64,
    length: u64,
}

impl Shape {
    /// Expects a bank whose header is good.
    pub fn of(bank: &[u8]) -> Shape {
        Shape { header: bank::length(bank::entries(bank).count(), 0) as u64, length: bank.len() as u64 }
    }

    /// The bytes of the header.
    pub fn header(&self) -> u64 {
        self.header
    }

    /// Which rules entry `n` breaks; nothing if it is good.
    pub fn faults(&self, n: u32, entry: Entry) -> String {
        let faults = match entry.kind {
            Entry::SOUND => self.faults_of_sound(entry),
            Entry::ALIAS => faults_of_alias(n, entry),
            kind => vec![format!("its kind is {kind}, but a sound has kind 0 and an alias kind 1")],
        };
        faults.join("; ")
    }

    fn faults_of_sound(&self, entry: Entry) -> Vec<String> {
        let Shape { header, length } = *self;
        let (start, end) = range(entry);
        let mut faults = Vec::new();
        if start < header {
            faults.push(format!("it begins at byte {start}, but the header ends at byte {header}"));
        }
        if start % BLOCK_BYTES != 0 {
            faults.push(format!("it begins at byte {start}, which is not a multiple of 16"));
        }
        if entry.count == 0 {
            faults.push("it has no blocks".to_owned());
        }
        if end > length {
            faults.push(format!("it ends at byte {end}, but the file has {}", counted(length, "byte", "bytes")));
        }
        faults
    }
}

fn faults_of_alias(n: u32, entry: Entry) -> Vec<String> {
    let mut faults = Vec::new();
    if entry.offset >= n {
        faults.push(format!("it is an alias of entry {}, but an alias leads to an entry before its own", entry.offset));
    }
    if entry.count != 0 {
        faults.push(format!(
            "it is an alias with {}, but an alias has none",
            counted(entry.count.into(), "block", "blocks")
        ));
    }
    faults
}

/// From where to where a sound reaches, in bytes from the bank's start.
pub fn range(sound: Entry) -> (u64, u64) {
    let start = u64::from(sound.offset);
    (start, start + BLOCK_BYTES * u64::from(sound.count))
}

#[cfg(test)]
mod tests {
    use super::*;

    fn bank_of(entries: &[Entry], length: usize) -> Vec<u8> {
        let mut bank = (entries.len() as u16).to_le_bytes().to_vec();
        for entry in entries {
            bank.extend(entry.kind.to_le_bytes());
            bank.extend(entry.offset.to_le_bytes());
            bank.extend(entry.count.to_le_bytes());
        }
        bank.resize(length, 0);
        bank
    }

    fn words(entries: &[Entry], length: usize) -> Option<String> {
        first(&bank_of(entries, length))
    }

    #[test]
    fn a_good_bank_has_no_damage() {
        assert_eq!(first(bank::EMPTY), None);
        assert_eq!(words(&[Entry::sound(32, 2), Entry::alias(0), Entry::alias(1)], 64), None);
    }

    #[test]
    fn a_damaged_header_says_which_rule() {
        for (bank, why) in [
            (&[][..], "the file is empty, but the number of entries takes 2 bytes"),
            (&[1], "the file has 1 byte, but the number of entries takes 2 bytes"),
            (&[1, 4, 0], "it counts 1025 entries, but a bank has at most 1024"),
            (&[0xFF; 100], "it counts 65535 entries, but a bank has at most 1024"),
            (&[1, 0], "it takes 12 bytes for 1 entry, but the file has 2 bytes"),
            (&[7; 50][..], "it counts 1799 entries, but a bank has at most 1024"),
            (&[7, 0, 0], "it takes 72 bytes for 7 entries, but the file has 3 bytes"),
        ] {
            assert_eq!(first(bank), Some(format!("the header is damaged: {why}")));
        }
    }

    #[test]
    fn a_damaged_entry_says_which_rules() {
        for (entry, why) in [
            (Entry { kind: 2, offset: 48, count: 1 }, "its kind is 2, but a sound has kind 0 and an alias kind 1"),
            (Entry::sound(16, 1), "it begins at byte 16, but the header ends at byte 32"),
            (Entry::sound(40, 1), "it begins at byte 40, which is not a multiple of 16"),
            (Entry::sound(48, 0), "it has no blocks"),
            (Entry::sound(64, 2), "it ends at byte 96, but the file has 80 bytes"),
            (Entry::sound(u32::MAX - 15, u32::MAX), "it ends at byte 73014444000, but the file has 80 bytes"),
            (Entry::alias(1), "it is an alias of entry 1, but an alias leads to an entry before its own"),
            (Entry { count: 1, ..Entry::alias(0) }, "it is an alias with 1 block, but an alias has none"),
            (
                Entry::sound(5, 0),
                "it begins at byte 5, but the header ends at byte 32; it begins at byte 5, which is not a multiple of \
                 16; it has no blocks",
            ),
        ] {
            let entries = [Entry::sound(32, 1), entry, Entry::alias(0)];
            assert_eq!(words(&entries, 80), Some(format!("entry 1 is damaged: {why}")));
        }
    }

    /// The words and the core agree on what is damaged.
    #[test]
    fn an_entry_has_faults_where_the_core_finds_damage() {
        let mut seed = 1u32;
        let mut below = |limit: u32| {
            seed = seed.wrapping_mul(1_664_525).wrapping_add(1_013_904_223);
            (seed >> 8) % limit
        };
        let (mut good, mut damaged) = (0, 0);
        for _ in 0..20_000 {
            let count = 1 + below(4);
            let mut entries = Vec::new();
            for n in 0..count {
                let [few, many] = [below(5), 0u32.wrapping_sub(below(40))];
                entries.push(match below(8) {
                    0 => Entry { kind: below(3) as u16, offset: 40 + below(40), count: few },
                    1 => Entry { kind: below(2) as u16, offset: many, count: [few, 1 << 28, many][below(3) as usize] },
                    2 => Entry { kind: below(2) as u16, offset: few, count: below(2) },
                    3 => Entry::sound(16 * below(8), 1 + few),
                    4 if n > 0 => Entry::alias(below(n)),
                    _ => Entry::sound(48, 1),
                });
            }
            let bank = bank_of(&entries, 64 + below(64) as usize);
            let shape = Shape::of(&bank);
            let first = (0..).zip(&entries).find(|&(n, &entry)| !shape.faults(n, entry).is_empty());
            assert_eq!(bank::check(&bank), first.map_or(Ok(()), |(n, _)| Err(Damage::Entry(n))), "{entries:?}");
            *if first.is_some() { &mut damaged } else { &mut good } += 1;
        }
        assert!(good > 2000 && damaged > 2000, "{good} good, {damaged} damaged");
    }
}
