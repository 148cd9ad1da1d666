//! The sectors that are read, and the sound of theirs that is decoded.

use std::fs::File;
use std::io::Seek;

use crate::console::Console;
use crate::failure::Failure;
use crate::source::Source;
use crate::speech::kind;
use crate::speech::options::{Options, Wanted};
use crate::speech::sector::{Channel, Coding, Kind, Sector, Sectors};
use crate::speech::survey::Survey;
use crate::wav::Format;

pub struct Input {
    /// As messages name it.
    pub name: String,
    pub format: Format,
    choice: Choice,
    sectors: Sectors<File>,
    /// The sector that was read to find the sound.
    ahead: Option<Sector>,
    /// How many sectors there are, if that is known.
    count: Option<u64>,
}

/// Which sectors are decoded.
#[derive(Clone, Copy)]
enum Choice {
    /// All. They do not say how they are coded.
    All(Coding),
    Of(Channel),
}

impl Input {
    /// Opens the file and chooses the sound.
    pub fn open(source: Source, options: &Options, console: &mut Console) -> Result<Input, Failure> {
        let (name, is_file) = (source.name.clone(), source.is_named_file());
        if options.sector.is_none() && !is_file {
            return Err(Failure::new(format!("{name} is read only once, so xa needs --sector N")));
        }
        let file = source.open()?;
        let kind = options.sector.map_or_else(|| kind::find(&name, &file), Ok)?;
        options.refuse_unfit(&name, kind)?;
        match (kind.has_subheaders(), is_file) {
            (false, _) => Input::all(name, file, kind, is_file, options.coding()),
            (true, true) => Input::surveyed(name, file, kind, options.channel, console),
            (true, false) => Input::first(name, file, kind, options.channel),
        }
    }

    fn all(name: String, file: File, kind: Kind, is_file: bool, coding: Coding) -> Result<Input, Failure> {
        let count = if is_file { Some(rewound(&name, &file, kind)?) } else { None };
        let (format, choice, sectors) = (coding.format(), Choice::All(coding), Sectors::new(file, kind));
        Ok(Input { name, format, choice, sectors, ahead: None, count })
    }

    /// Looks through a regular file for its sounds.
    fn surveyed(
        name: String,
        file: File,
        kind: Kind,
        wanted: Option<Wanted>,
        console: &mut Console,
    ) -> Result<Input, Failure> {
        let count = rewound(&name, &file, kind)?;
        let progress = |seen| console.progress(|| format!("{}% looked through", percent(seen, count)));
        let survey =
            Survey::of(Sectors::new(&file, kind), progress).map_err(|error| Failure::reading(&name, &error))?;
        let (channel, format) = survey.choose(&name, wanted)?;
        rewound(&name, &file, kind)?;
        let (choice, sectors) = (Choice::Of(channel), Sectors::new(file, kind));
        Ok(Input { name, format, choice, sectors, ahead: None, count: Some(count) })
    }

    /// Reads on to the first sound, or to the first that is wanted.
    fn first(name: String, file: File, kind: Kind, wanted: Option<Wanted>) -> Result<Input, Failure> {
        let mut sectors = Sectors::new(file, kind);
        while let Some(sector) = sectors.next().transpose().map_err(|error| Failure::reading(&name, &error))? {
            let channel = sector.sound_subheader().map(|subheader| subheader.channel);
            let wanted_channel = channel.filter(|&channel| wanted.is_none_or(|wanted| wanted.is(channel)));
            let Some(channel) = wanted_channel else { continue };
            let coding = sector.coding().map_err(|why| {
                Failure::new(format!("{name}: the sound {channel} begins with sector {}: {why}", sector.number))
            })?;
            let (format, choice) = (coding.format(), Choice::Of(channel));
            return Ok(Input { name, format, choice, sectors, ahead: Some(sector), count: None });
        }
        let such = if wanted.is_some() { "such " } else { "" };
        Err(Failure::new(format!("{name} holds no {such}sound")))
    }

    /// How many sectors were passed over to find the sound.
    pub fn passed_over(&self) -> u64 {
        self.ahead.as_ref().map_or(0, |sector| sector.number)
    }

    /// The next sector, whatever it holds.
    pub fn read(&mut self) -> Result<Option<Sector>, Failure> {
        match self.ahead.take() {
            None => self.sectors.next().transpose().map_err(|error| Failure::reading(&self.name, &error)),
            ahead => Ok(ahead),
        }
    }

    /// Whether the next sector has to be read first, which may take time.
    pub fn must_read(&self) -> bool {
        self.ahead.is_none() && self.sectors.must_read()
    }

    /// How much is read with a sector, in percent, if that is known.
    pub fn percent(&self, sector: &Sector) -> Option<u64> {
        self.count.map(|count| percent(sector.number + 1, count))
    }

    /// The sound groups of a sector and how they are coded, or `None` if it holds nothing of the sound. If it is damaged,
    /// what is wrong with it.
    pub fn sound<'a>(&self, sector: &'a Sector) -> Result<Option<(&'a [u8], Coding)>, String> {
        let coding = match self.choice {
            Choice::All(coding) => Ok(coding),
            Choice::Of(channel) if sector.may_be_of(channel) => sector.coding(),
            Choice::Of(_) => return Ok(None),
        };
        let groups = sector.groups()?;
        Ok(Some((groups, coding?)))
    }
}

/// Goes back to the file's first byte, and returns how many sectors it has, a cut one too.
fn rewound(name: &str, mut file: &File, kind: Kind) -> Result<u64, Failure> {
    let length = file.rewind().and_then(|()| file.metadata()).map_err(|error| Failure::reading(name, &error))?.len();
    Ok(length.div_ceil(kind.bytes() as u64))
}

fn percent(part: u64, whole: u64) -> u64 {
    100 * part.min(whole) / whole.max(1)
}
