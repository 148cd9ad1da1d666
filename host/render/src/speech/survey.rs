//! Which sounds a file of sectors with subheaders holds.

use std::collections::BTreeMap;
use std::io::{self, Read};

use tenonwhisk::xa::Bits;

use crate::failure::Failure;
use crate::speech::options::Wanted;
use crate::speech::sector::{Channel, Sector, Sectors, Subheader};
use crate::wav::Format;
use crate::words;

/// The rate in which lengths are counted, a multiple of every rate.
const RATE: u32 = 37_800;

#[derive(Default)]
pub struct Survey {
    /// All sectors, cut ones too.
    sectors: u64,
    sounds: BTreeMap<Channel, Sound>,
}

#[derive(Default)]
struct Sound {
    sectors: u64,
    /// How many of them have samples of 8 bits.
    eight_bit: u64,
    /// The format of the first sector whose coding is known.
    format: Option<Format>,
    /// What is wrong if a sector has another format.
    change: Option<String>,
    /// In units of 1/37800 s.
    length: u64,
}

impl Survey {
    /// Looks through all sectors, and calls `progress` with their number now and then.
    pub fn of(sectors: Sectors<impl Read>, mut progress: impl FnMut(u64)) -> io::Result<Survey> {
        let mut survey = Survey::default();
        for sector in sectors {
            let sector = sector?;
            survey.sectors += 1;
            progress(survey.sectors);
            if let Some(subheader) = sector.sound_subheader().filter(|_| sector.groups().is_ok()) {
                survey.sounds.entry(subheader.channel).or_default().add(&sector, subheader);
            }
        }
        Ok(survey)
    }

    /// The sound that is wanted, or the only one, and its format. A WAV file has one format, so a sound that changes it
    /// is refused.
    pub fn choose(&self, name: &str, wanted: Option<Wanted>) -> Result<(Channel, Format), Failure> {
        let is_wanted = |channel: Channel| wanted.is_none_or(|wanted| wanted.is(channel));
        let mut chosen = self.sounds.iter().filter(|&(&channel, _)| is_wanted(channel));
        let words = match (chosen.next(), chosen.next()) {
            (Some((&channel, sound)), None) => match sound.format() {
                Ok(format) => return Ok((channel, format)),
                Err(why) => format!("{name}: the sound {channel} cannot be decoded: {why}"),
            },
            _ if self.sectors == 0 => format!("{name} is empty"),
            _ if self.sounds.is_empty() => {
                format!("{name} holds no sound ({} of other kinds)", words::counted(self.sectors, "sector", "sectors"))
            }
            (None, _) => format!("{name} holds no such sound; choose one of these:{}", self.list(|_| true)),
            _ => format!("{name} holds more than one sound; choose one of these:{}", self.list(is_wanted)),
        };
        Err(Failure::new(words))
    }

    fn list(&self, is_listed: impl Fn(Channel) -> bool) -> String {
        let listed: Vec<_> = self.sounds.iter().filter(|&(&channel, _)| is_listed(channel)).collect();
        let width = listed.iter().map(|(channel, _)| channel.to_string().len()).max().unwrap_or(0);
        let lines = listed.iter().map(|(channel, sound)| {
            let channel = channel.to_string();
            format!("\n  --channel {channel:width$}  {}", sound.words())
        });
        lines.collect()
    }
}

impl Sound {
    fn add(&mut self, sector: &Sector, subheader: Subheader) {
        self.sectors += 1;
        let Some(coding) = subheader.coding() else { return };
        let format = coding.format();
        if coding.bits == Bits::Eight {
            self.eight_bit += 1;
        }
        self.length += coding.samples() as u64 / u64::from(format.channels) * u64::from(RATE / format.rate);
        let first = *self.format.get_or_insert(format);
        if format != first && self.change.is_none() {
            self.change = Some(changed(first, format, sector));
        }
    }

    /// The format of a sound that can be decoded; else why it cannot.
    fn format(&self) -> Result<Format, String> {
        if self.eight_bit == self.sectors {
            return Err("its samples have 8 bits, and xa decodes only samples of 4 bits".to_owned());
        }
        match &self.change {
            Some(why) => Err(why.clone()),
            None => self.format.ok_or_else(|| "the coding information of its sectors is reserved".to_owned()),
        }
    }

    fn words(&self) -> String {
        let Sound { sectors, length, .. } = *self;
        let mut words = format!("{}, {}", words::counted(sectors, "sector", "sectors"), words::seconds(length, RATE));
        if let Some(format) = self.format {
            words += &format!(", {format}");
        }
        if self.eight_bit > 0 {
            words += ", 8 bits";
        }
        words
    }
}

/// What is wrong if a sector of a sound has another format.
pub fn changed(from: Format, to: Format, sector: &Sector) -> String {
    let (number, at) = (sector.number, sector.at());
    format!("it changes from {from} to {to} at sector {number} (byte {at}), and a WAV file has one format")
}
