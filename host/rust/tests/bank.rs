//! Sound banks, which need neither `std` nor an allocator.

use tenonwhisk::bank::{self, Damage, Entry, Owner};
use tenonwhisk::Refusal;

/// The first byte after the header at which a sound may begin.
fn first_offset(entries: usize) -> usize {
    bank::length(entries, 0).next_multiple_of(16)
}

/// A bank of sounds, one after the other, and aliases. The blocks of a sound are filled with one byte.
fn made(sounds: &[(u32, u8)], aliases: &[u32]) -> Vec<u8> {
    let count = sounds.len() + aliases.len();
    let header = bank::length(count, 0);
    let mut data = vec![0xEE; first_offset(count) - header];
    let mut entries = Vec::new();
    for &(blocks, byte) in sounds {
        entries.push(Entry::sound((header + data.len()) as u32, blocks));
        data.resize(data.len() + 16 * blocks as usize, byte);
    }
    entries.extend(aliases.iter().map(|&of| Entry::alias(of)));
    let mut out = vec![0; header + data.len()];
    assert_eq!(bank::write(&entries, &data, &mut out), Ok(out.len()));
    out
}

fn title() -> Vec<u8> {
    made(&[(1, 0x10), (2, 0x11)], &[1])
}

fn house() -> Vec<u8> {
    made(&[(3, 0x20), (1, 0x21), (1, 0x22)], &[0, 3])
}

/// Puts an entry into a bank, good or not.
fn put(bank: &mut [u8], n: usize, entry: Entry) {
    let Entry { kind, offset, count } = entry;
    let bytes = [&kind.to_le_bytes()[..], &offset.to_le_bytes(), &count.to_le_bytes()].concat();
    bank[2 + 10 * n..][..10].copy_from_slice(&bytes);
}

#[test]
fn the_title_is_asked_before_the_house() {
    let (title, house) = (title(), house());
    let sounds: Vec<_> = (0..5).map(|number| bank::lookup(&title, &house, number).unwrap().to_vec()).collect();
    assert_eq!(sounds, [vec![0x10; 16], vec![0x11; 32], vec![0x11; 32], vec![0x20; 48], vec![0x20; 48]]);
    for number in [5, 0x1_0000, u32::MAX] {
        assert_eq!(bank::lookup(&title, &house, number), Err(Refusal::NoEntry));
    }
}

#[test]
fn a_sound_is_found_where_it_stands() {
    let (title, house) = (title(), house());
    let found = bank::find(&title, &house, 2).unwrap();
    assert_eq!((found.owner, found.entry, found.offset, found.length), (Owner::Title, 1, 32 + 16, 32));
    let found = bank::find(&title, &house, 4).unwrap();
    assert_eq!((found.owner, found.entry, found.offset, found.length), (Owner::House, 0, 64, 48));
    let sound = bank::lookup(&title, &house, 4).unwrap();
    assert_eq!(sound.as_ptr(), house[64..].as_ptr());
}

#[test]
fn either_bank_may_be_missing() {
    let bank = title();
    assert_eq!(bank::check(bank::EMPTY), Ok(()));
    assert_eq!(bank::lookup(&bank, bank::EMPTY, 0).unwrap(), [0x10; 16]);
    assert_eq!(bank::lookup(bank::EMPTY, &bank, 2).unwrap(), [0x11; 32]);
    assert_eq!(bank::lookup(&bank, &bank, 0).unwrap(), [0x10; 16]);
    assert_eq!(bank::lookup(bank::EMPTY, bank::EMPTY, 0), Err(Refusal::NoEntry));
}

#[test]
fn a_sound_outlives_the_call_that_found_it() {
    fn sounds<'a>(title: &'a [u8], house: &'a [u8], numbers: &[u32]) -> Vec<&'a [u8]> {
        numbers.iter().map(|&number| bank::lookup(title, house, number).unwrap()).collect()
    }
    let (title, house) = (title(), house());
    let held = {
        let numbers = [0, 3];
        sounds(&title, &house, &numbers)
    };
    let constant: Result<&'static [u8], Refusal> = bank::lookup(bank::EMPTY, bank::EMPTY, 0);
    assert_eq!(held, [&[0x10; 16][..], &[0x20; 48]]);
    assert_eq!(constant, Err(Refusal::NoEntry));
    let (titles_end, houses_end) = (title.as_ptr_range().end, house.as_ptr_range().end);
    assert!(title.as_ptr() <= held[0].as_ptr() && held[0].as_ptr_range().end <= titles_end);
    assert!(house.as_ptr() <= held[1].as_ptr() && held[1].as_ptr_range().end <= houses_end);
}

#[test]
fn both_banks_must_be_good() {
    let (title, house) = (title(), house());
    let mut damaged = house.clone();
    put(&mut damaged, 1, Entry::sound(64, 0));
    assert_eq!(bank::lookup(&title, &damaged, 0), Err(Refusal::Bank));
    assert_eq!(bank::lookup(&damaged, &title, 0), Err(Refusal::Bank));
    assert_eq!(bank::find(&title, &[], 0), Err(Refusal::Bank));
    assert_eq!(bank::find(&title, &damaged, u32::MAX), Err(Refusal::Bank));
}

#[test]
fn a_damaged_header_is_told() {
    let bank = title();
    for length in 0..bank::length(3, 0) {
        assert_eq!(bank::check(&bank[..length]), Err(Damage::Header), "{length} bytes");
        assert_eq!(bank::entry(&bank[..length], 0), Err(Refusal::Bank));
        assert_eq!(bank::entries(&bank[..length]).count(), 0);
    }
    let mut large = vec![0; bank::length(1025, 16)];
    large[..2].copy_from_slice(&1025u16.to_le_bytes());
    assert_eq!(bank::check(&large), Err(Damage::Header));
}

#[test]
fn the_first_damaged_entry_is_told() {
    let good = made(&[(1, 0x30), (2, 0x31), (1, 0x32)], &[0, 3]);
    let (length, last) = (good.len() as u32, (good.len() - 16) as u32);
    let sound = |offset, count| Entry { kind: 0, offset, count };
    let alias = |offset, count| Entry { kind: 1, offset, count };
    let at_4 = |entry| {
        let mut bank = good.clone();
        put(&mut bank, 4, entry);
        bank::check(&bank)
    };
    for entry in [sound(64, 4), sound(last, 1), alias(0, 0), alias(3, 0)] {
        assert_eq!(at_4(entry), Ok(()), "{entry:?}");
    }
    for entry in [
        Entry { kind: 2, offset: 64, count: 1 },
        Entry { kind: 0x100, offset: 64, count: 1 },
        sound(64, 0),
        sound(48, 1),
        sound(72, 1),
        sound(64, 5),
        sound(length, 1),
        sound(0xFFFF_FFF0, 1),
        sound(64, 0x1000_0000),
        sound(64, u32::MAX),
        alias(4, 0),
        alias(5, 0),
        alias(0x1_0000, 0),
        alias(0, 1),
        alias(0, 0x1_0000),
    ] {
        assert_eq!(at_4(entry), Err(Damage::Entry(4)), "{entry:?}");
    }
    let mut bank = good;
    for n in [3, 1] {
        put(&mut bank, n, sound(64, 0));
        assert_eq!(bank::check(&bank), Err(Damage::Entry(n as u32)));
    }
}

#[test]
fn damage_has_words() {
    let error: Box<dyn std::error::Error> = Box::new(Damage::Entry(7));
    assert_eq!(error.to_string(), "entry 7 is damaged");
    assert_eq!(Damage::Header.to_string(), "the header is damaged");
}

#[test]
fn entries_are_read_as_they_stand() {
    let mut bank = title();
    let odd = Entry { kind: 0xABCD, offset: 0x1234_5678, count: 0x9ABC_DEF0 };
    put(&mut bank, 1, odd);
    let entries = [Entry::sound(32, 1), odd, Entry::alias(1)];
    assert_eq!(bank::entries(&bank).collect::<Vec<_>>(), entries);
    assert_eq!(bank::entry(&bank, 1), Ok(odd));
    for n in [3, 0x1_0000, u32::MAX] {
        assert_eq!(bank::entry(&bank, n), Err(Refusal::NoEntry));
    }
}

#[test]
fn a_written_bank_reads_back() {
    let entries = [Entry::sound(64, 1), Entry::sound(48, 2), Entry::alias(1), Entry::alias(2)];
    let data: Vec<u8> = (0..100).collect();
    let length = bank::length(entries.len(), data.len());
    let mut out = vec![0xA5; length + 3];
    assert_eq!(bank::write(&entries, &data, &mut out), Ok(length));
    assert_eq!(out[length..], [0xA5; 3]);
    for bank in [&out, &out[..length]] {
        assert_eq!(bank::entries(bank).collect::<Vec<_>>(), entries);
        for (number, from) in [64, 48, 48, 48].into_iter().enumerate() {
            let sound = bank::lookup(bank, bank::EMPTY, number as u32).unwrap();
            let whole = [&out[..42], &data].concat();
            assert_eq!(sound, &whole[from..from + sound.len()]);
        }
    }
}

#[test]
fn a_refused_write_leaves_the_buffer() {
    let data = [0; 58];
    let mut out = [0xA5; 80];
    let mut refused = |entries: &[Entry], room: usize, refusal| {
        assert_eq!(bank::write(entries, &data, &mut out[..room]), Err(refusal));
        assert_eq!(out, [0xA5; 80]);
    };
    refused(&[Entry::sound(32, 2), Entry::alias(1)], 80, Refusal::Bank);
    refused(&[Entry::sound(32, 4)], 80, Refusal::Bank); // it ends in the buffer, but not in the bank
    refused(&[Entry::sound(32, 4)], 0, Refusal::Bank);
    refused(&[Entry::sound(32, 2)], 69, Refusal::Room);
    refused(&[], 0, Refusal::Room);
    assert_eq!(bank::write(&[Entry::sound(32, 2)], &data, &mut out[..70]), Ok(70));
    assert_eq!(bank::write(&[], &[], &mut out), Ok(2));
    assert_eq!(out[..2], *bank::EMPTY);
}

#[test]
fn a_bank_has_at_most_1024_entries() {
    let header = bank::length(bank::MOST_ENTRIES, 0);
    let first = Entry::sound(first_offset(bank::MOST_ENTRIES) as u32, 1);
    let entries: Vec<_> = std::iter::once(first).chain((0..).map(Entry::alias)).take(3000).collect();
    let data = vec![0x77; 40];
    let mut out = vec![0xA5; 40_000];
    for count in [bank::MOST_ENTRIES + 1, bank::MOST_ENTRIES + 2, 3000] {
        assert_eq!(bank::write(&entries[..count], &data, &mut out), Err(Refusal::Bank), "{count} entries");
        assert!(out.iter().all(|&byte| byte == 0xA5));
    }
    assert_eq!(bank::write(&entries[..bank::MOST_ENTRIES], &data, &mut out), Ok(header + 40));
    assert_eq!(bank::entries(&out).count(), bank::MOST_ENTRIES);
    let found = bank::find(bank::EMPTY, &out, 1023).unwrap();
    assert_eq!((found.owner, found.entry, found.length), (Owner::House, 0, 16));
}
