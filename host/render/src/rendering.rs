//! A run from the script's first line to its last.

use std::fs::File;
use std::path::{Path, PathBuf};

use tenonwhisk::{Refusal, Spu};

use crate::banks::Banks;
use crate::cd::Cd;
use crate::console::Console;
use crate::failure::Failure;
use crate::findings::Findings;
use crate::load::{self, Loader};
use crate::options::Options;
use crate::output::Output;
use crate::script::{Command, Script};
use crate::source::Source;
use crate::target::Target;
use crate::wav::{Format, RATE};
use crate::{clashes, words};

/// Pairs that are rendered at once.
const MOST_PAIRS: usize = 4096;

pub struct Rendering<'a> {
    console: &'a mut Console,
    findings: &'a mut Findings,
    spu: Spu,
    loader: Loader,
    cd: Option<Cd>,
    banks: Option<Banks>,
    script: Script<File>,
    script_name: String,
    /// The folder of the files that the script names.
    folder: PathBuf,
    output: Output,
    cd_samples: Vec<i16>,
    samples: Vec<i16>,
}

impl<'a> Rendering<'a> {
    /// Looks at all files first and opens the output last.
    pub fn prepare(
        options: &Options,
        console: &'a mut Console,
        findings: &'a mut Findings,
    ) -> Result<Rendering<'a>, Failure> {
        let source = Source::find(&options.script)?;
        let target = Target::find(&options.out, "render")?;
        let find = |path: &Option<PathBuf>| path.as_deref().map(Source::file).transpose();
        let (cd, title, house) = (find(&options.cd)?, find(&options.title)?, find(&options.house)?);
        let inputs = [
            ("SCRIPT", Some(&source)),
            ("the CD", cd.as_ref()),
            ("the title's bank", title.as_ref()),
            ("the house's bank", house.as_ref()),
        ];
        clashes::refuse(&target, &inputs)?;
        target.check_replaceable()?;
        let loader = Loader::new(options.size).map_err(|refusal| Failure::new(refusal.to_string()))?;
        let banks = Banks::read(title, house)?;
        let cd = cd.map(Cd::open).transpose()?;
        let (script_name, folder) = (source.name.clone(), source.folder.clone());
        Ok(Rendering {
            console,
            findings,
            spu: Spu::new(options.size),
            loader,
            cd,
            banks,
            script: Script::new(source.open()?),
            script_name,
            folder,
            output: Output::open(target, Format::CHIP)?,
            cd_samples: vec![0; 2 * MOST_PAIRS],
            samples: vec![0; 2 * MOST_PAIRS],
        })
    }

    pub fn writes_stream(&self) -> bool {
        self.output.is_stream()
    }

    /// Renders the whole script and returns the number of pairs.
    pub fn run(mut self) -> Result<u64, Failure> {
        while let Some(command) = self.next_command()? {
            self.obey(command)?;
        }
        let pairs = self.output.frames();
        self.output.finish()?;
        Ok(pairs)
    }

    /// Passes on all sound before it waits for more of the script, for whoever listens to a stream.
    fn next_command(&mut self) -> Result<Option<Command>, Failure> {
        if self.script.must_read() {
            self.output.flush()?;
        }
        self.script.next_command().map_err(|error| Failure::reading(&self.script_name, &error))
    }

    fn obey(&mut self, command: Command) -> Result<(), Failure> {
        match command {
            Command::Write { offset, value } => {
                let written = self.spu.write(offset, value);
                self.report_refusal(written);
            }
            Command::TransferIn(values) => {
                let moved = self.spu.transfer_in(&values);
                self.report_refusal(moved);
            }
            Command::Ticks(count) => self.sound(count.into())?,
            Command::Load { address, file } => self.load(address, &file)?,
            Command::Sound(number) => self.move_sound(number),
            Command::Bad(expected) => self.report(&format!("bad line ({expected})")),
        }
        Ok(())
    }

    fn sound(&mut self, mut pairs_left: usize) -> Result<(), Failure> {
        while pairs_left > 0 {
            let pairs = pairs_left.min(MOST_PAIRS);
            self.play_cd(pairs)?;
            match self.spu.run(&self.cd_samples[..2 * pairs], &mut self.samples[..2 * pairs]) {
                Ok(ran) => {
                    self.report_doubt(ran.doubt);
                    self.output.write(&self.samples[..2 * pairs])?;
                    let pairs = self.output.frames();
                    self.console.progress(|| format!("{:.1} s rendered", pairs as f64 / f64::from(RATE)));
                }
                refused => self.report_refusal(refused),
            }
            pairs_left -= pairs;
        }
        Ok(())
    }

    fn play_cd(&mut self, pairs: usize) -> Result<(), Failure> {
        if let Some(cd) = &mut self.cd {
            if let Some(note) = cd.play(&mut self.cd_samples[..2 * pairs])? {
                self.console.line(&note);
            }
        }
        Ok(())
    }

    /// Loading the output file ends the run, because the sound would replace what the script asks for.
    fn load(&mut self, address: u32, file: &Path) -> Result<(), Failure> {
        let path = self.folder.join(file);
        let name = words::name(&path);
        let identity = load::identity(&path);
        if identity.as_ref().is_ok_and(|&identity| self.output.is(identity)) {
            self.findings.lines += 1;
            let number = self.script.line_number();
            return Err(Failure::new(format!("line {number}: cannot load {name}: it is the output file")));
        }
        let bytes = identity.and_then(|_| self.loader.room(address)).and_then(|room| load::read(&path, room));
        match bytes {
            Ok(bytes) => {
                let loaded = self.loader.load(&mut self.spu, address, &bytes);
                self.report_refusal(loaded);
            }
            Err(why) => self.report(&format!("cannot load {name}: {why}")),
        }
        Ok(())
    }

    /// Moves a sound of the banks to the transfer address, all of it or nothing.
    fn move_sound(&mut self, number: u32) {
        let Some(banks) = &self.banks else {
            return self.report("there is no sound bank; name one with --title FILE or --house FILE");
        };
        let room = self.spu.ram().len();
        let moved = match banks.lookup(number) {
            Ok(sound) if sound.len() > room => {
                let length = sound.len();
                return self.report(&format!("sound {number} has {length} bytes, but sound RAM has only {room}"));
            }
            Ok(sound) => load::transfer(&mut self.spu, sound),
            Err(refusal) => Err(refusal),
        };
        self.report_refusal(moved);
    }

    fn report(&mut self, words: &str) {
        self.console.line(&format!("line {}: {words}", self.script.line_number()));
        self.findings.lines += 1;
    }

    fn report_refusal<T>(&mut self, result: Result<T, Refusal>) {
        if let Err(refusal) = result {
            self.report(&format!("refused ({}): {refusal}", refusal.number()));
        }
    }

    /// Expects the tick within the run that the output gets next.
    fn report_doubt(&mut self, within_run: Option<usize>) {
        let Some(within_run) = within_run else { return };
        let tick = self.output.frames() + within_run as u64;
        self.findings.doubt = self.findings.doubt.or(Some(tick));
        self.console.line(&format!(
            "line {}: from tick {tick} ({}) on the sound may rest on memory that nobody loaded",
            self.script.line_number(),
            words::seconds(tick, RATE)
        ));
    }
}
