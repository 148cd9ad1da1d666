//! A run from the first sector to the last.

use tenonwhisk::xa::{Histories, SAMPLES};

use crate::console::Console;
use crate::failure::Failure;
use crate::output::Output;
use crate::source::Source;
use crate::speech::input::Input;
use crate::speech::options::Options;
use crate::speech::sector::{Coding, Sector};
use crate::speech::tally::Tally;
use crate::speech::{faults, survey};
use crate::target::Target;
use crate::wav::Format;
use crate::{clashes, words};

pub struct Decoding<'a> {
    console: &'a mut Console,
    input: Input,
    histories: Histories,
    samples: Vec<i16>,
    output: Output,
    tally: Tally,
}

/// What a run gave.
pub struct Decoded {
    pub tally: Tally,
    pub format: Format,
    pub frames: u64,
}

impl<'a> Decoding<'a> {
    /// Looks at the files and into the sectors first, and opens the output last.
    pub fn prepare(options: &Options, console: &'a mut Console) -> Result<Decoding<'a>, Failure> {
        let source = Source::find(&options.file)?;
        let target = Target::find(&options.out, "xa")?;
        clashes::refuse(&target, &[("FILE", Some(&source))])?;
        target.check_replaceable()?;
        let input = Input::open(source, options, console)?;
        let output = Output::open(target, input.format)?;
        let tally = Tally { skipped: input.passed_over(), ..Tally::default() };
        Ok(Decoding { console, input, histories: Histories::new(), samples: vec![0; SAMPLES], output, tally })
    }

    pub fn writes_stream(&self) -> bool {
        self.output.is_stream()
    }

    /// Decodes all sectors of the sound.
    pub fn run(mut self) -> Result<Decoded, Failure> {
        while let Some(sector) = self.next_sector()? {
            self.take(&sector)?;
            self.show_progress(&sector);
        }
        let Decoding { input: Input { name, format, .. }, output, tally, .. } = self;
        if tally.decoded == 0 {
            return Err(Failure::new(match tally.left_out {
                0 => format!("{name} is empty"),
                _ => format!("{name}: no sector of the sound can be decoded"),
            }));
        }
        let frames = output.frames();
        output.finish()?;
        Ok(Decoded { tally, format, frames })
    }

    /// Passes on all sound before it waits for more sectors, for whoever listens to a stream.
    fn next_sector(&mut self) -> Result<Option<Sector>, Failure> {
        if self.input.must_read() {
            self.output.flush()?;
        }
        self.input.read()
    }

    fn take(&mut self, sector: &Sector) -> Result<(), Failure> {
        match self.input.sound(sector) {
            Ok(Some((groups, coding))) => self.decode(sector, groups, coding),
            Ok(None) => {
                self.tally.skipped += 1;
                Ok(())
            }
            Err(why) => self.leave_out(sector, SAMPLES, &why),
        }
    }

    fn decode(&mut self, sector: &Sector, groups: &[u8], coding: Coding) -> Result<(), Failure> {
        let Input { name, format, .. } = &self.input;
        if coding.format() != *format {
            let why = survey::changed(*format, coding.format(), sector);
            return Err(Failure::new(format!("{name}: the sound cannot be decoded: {why}")));
        }
        match self.histories.decode(groups, coding.channels, coding.bits, &mut self.samples) {
            Ok(()) => {
                self.tally.decoded += 1;
                self.output.write(&self.samples)
            }
            Err(refusal) => self.leave_out(sector, coding.samples(), &faults::of_refused(refusal, groups)),
        }
    }

    /// Puts silence in a sector's place. The histories stay, so that the next sector goes on from the one before.
    fn leave_out(&mut self, sector: &Sector, samples: usize, why: &str) -> Result<(), Failure> {
        let time = words::seconds(self.output.frames(), self.input.format.rate);
        let (number, at) = (sector.number, sector.at());
        self.console.line(&format!("sector {number} (byte {at}, {time}) is left out as silence: {why}"));
        self.tally.left_out += 1;
        self.output.write(&vec![0; samples])
    }

    fn show_progress(&mut self, sector: &Sector) {
        let seconds = self.output.frames() as f64 / f64::from(self.input.format.rate);
        let percent = self.input.percent(sector);
        self.console.progress(|| match percent {
            Some(percent) => format!("{seconds:.1} s decoded, {percent}%"),
            None => format!("{seconds:.1} s decoded"),
        });
    }
}
