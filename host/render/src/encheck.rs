//! `encheck [OPTIONS] ORIGINAL.wav ENCODED [E]`: says whether an ADPCM encoder's blocks decode to the sound that it was
//! given. `encheck --help` says more.

#![deny(unsafe_code)]

use std::process::ExitCode;

use tenonwhisk_render::console::{self, Console};
use tenonwhisk_render::encoding::judging::{self, Judgment};
use tenonwhisk_render::encoding::options::{self, Options, Request};
use tenonwhisk_render::encoding::report;
use tenonwhisk_render::encoding::sound::Sound;
use tenonwhisk_render::failure::Failure;

const NO: u8 = 1;
const WRONG_USAGE: u8 = 2;
const FAILED: u8 = 4;

fn main() -> ExitCode {
    let mut console = Console::new();
    let done = match options::parse(std::env::args_os().skip(1)) {
        Ok(Request::Help) => console::print(options::HELP).map(|()| 0),
        Ok(Request::Version) => console::print(options::VERSION).map(|()| 0),
        Ok(Request::Check(options)) => check(&options, &mut console),
        Err(words) => {
            console.line(&words);
            console.line(options::USAGE);
            Ok(WRONG_USAGE)
        }
    };
    ExitCode::from(done.unwrap_or_else(|failure| {
        console.line(&failure.to_string());
        FAILED
    }))
}

fn check(options: &Options, console: &mut Console) -> Result<u8, Failure> {
    let sound = Sound::read(options)?;
    let judgment = judging::judge(&sound, options.largest, console).map_err(|refusal| sound.refused(refusal))?;
    console.clear();
    console::print(&report::text(&sound, &judgment))?;
    Ok(match judgment {
        Judgment::Yes(_) => 0,
        Judgment::No(..) => NO,
    })
}
