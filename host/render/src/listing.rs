//! A sound bank as a table: a line for each entry, and a summary.

use tenonwhisk::bank::{self, Entry};

use crate::damage::{self, Shape};
use crate::words::counted;

/// How many aliases of a chain a line names.
const MOST_NAMED: usize = 3;

struct Listing {
    entries: Vec<Entry>,
    /// What is wrong with each entry; nothing with a good one.
    faults: Vec<String>,
    header: u64,
    length: u64,
}

/// Lists a bank under a name. Expects a bank whose header is good.
pub fn text(name: &str, bank: &[u8]) -> String {
    let listing = Listing::of(bank);
    format!("{}{name}: {}\n", listing.table(), listing.summary())
}

impl Listing {
    fn of(bank: &[u8]) -> Listing {
        let shape = Shape::of(bank);
        let entries: Vec<_> = bank::entries(bank).collect();
        let faults = (0..).zip(&entries).map(|(n, &entry)| shape.faults(n, entry)).collect();
        Listing { entries, faults, header: shape.header(), length: bank.len() as u64 }
    }

    fn is_good(&self, n: usize) -> bool {
        self.faults[n].is_empty()
    }

    /// The good entries of a kind.
    fn good(&self, kind: u16) -> impl Iterator<Item = Entry> + '_ {
        let entries = self.entries.iter().enumerate();
        entries.filter(move |&(n, entry)| entry.kind == kind && self.is_good(n)).map(|(_, &entry)| entry)
    }

    fn table(&self) -> String {
        if self.entries.is_empty() {
            return String::new();
        }
        let mut rows = vec![["entry", "kind", "offset", "blocks"].map(str::to_owned)];
        rows.extend((0..self.entries.len()).map(|n| self.row(n)));
        let [entry, kind, offset, blocks] =
            [0, 1, 2, 3].map(|column| rows.iter().map(|row| row[column].len()).max().unwrap_or(0));
        let notes = std::iter::once(String::new()).chain((0..self.entries.len()).map(|n| self.note(n)));
        let lines = rows.iter().zip(notes).map(|([n, k, at, count], note)| {
            let line = format!("{n:>entry$}  {k:<kind$}  {at:>offset$}  {count:>blocks$}  {note}");
            format!("{}\n", line.trim_end())
        });
        lines.collect()
    }

    fn row(&self, n: usize) -> [String; 4] {
        let Entry { kind, offset, count } = self.entries[n];
        match kind {
            Entry::SOUND => [n.to_string(), "sound".to_owned(), offset.to_string(), count.to_string()],
            Entry::ALIAS => [n.to_string(), "alias".to_owned(), "-".to_owned(), "-".to_owned()],
            kind => [n, kind.into(), offset as usize, count as usize].map(|number| number.to_string()),
        }
    }

    fn note(&self, n: usize) -> String {
        match self.entries[n].kind {
            _ if !self.is_good(n) => format!("DAMAGED: {}", self.faults[n]),
            Entry::ALIAS => self.lead(n),
            _ => String::new(),
        }
    }

    /// What a good alias leads to, and the aliases on its way.
    fn lead(&self, alias: usize) -> String {
        let (mut at, mut way) = (self.entries[alias].offset as usize, Vec::new());
        while self.entries[at].kind == Entry::ALIAS && self.is_good(at) {
            way.push(at);
            at = self.entries[at].offset as usize;
        }
        let named: Vec<_> = way.iter().take(MOST_NAMED).map(usize::to_string).collect();
        let through = match way.len() {
            0 => String::new(),
            1..=MOST_NAMED => format!(" through {}", named.join(", ")),
            length => format!(" through {} and {} more", named.join(", "), length - MOST_NAMED),
        };
        let damaged = if self.is_good(at) { "" } else { ", which is damaged" };
        format!("leads{through} to entry {at}{damaged}")
    }

    fn summary(&self) -> String {
        let (sounds, aliases) = (self.good(Entry::SOUND).count(), self.good(Entry::ALIAS).count());
        let damaged = self.entries.len() - sounds - aliases;
        let mut kinds = vec![counted(sounds as u64, "sound", "sounds"), counted(aliases as u64, "alias", "aliases")];
        if damaged > 0 {
            kinds.push(format!("{damaged} damaged"));
        }
        let used = self.used();
        let (header, unused) = (self.header, self.length - self.header - used);
        format!(
            "{} ({}), {} ({header} in the header, {used} in sounds, {unused} unused)",
            counted(self.entries.len() as u64, "entry", "entries"),
            kinds.join(", "),
            counted(self.length, "byte", "bytes"),
        )
    }

    /// How many bytes belong to good sounds. Sounds may overlap.
    fn used(&self) -> u64 {
        let mut ranges: Vec<_> = self.good(Entry::SOUND).map(damage::range).collect();
        ranges.sort_unstable();
        let (mut used, mut counted_to) = (0, 0);
        for (start, end) in ranges {
            used += end.max(counted_to) - start.max(counted_to);
            counted_to = end.max(counted_to);
        }
        used
    }
}
