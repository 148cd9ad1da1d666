//! `xa [OPTIONS] FILE OUT`: decodes XA sectors to a WAV file. `xa --help` says more.

#![deny(unsafe_code)]

use std::process::ExitCode;

use tenonwhisk_render::console::{self, Console};
use tenonwhisk_render::speech::decoding::Decoding;
use tenonwhisk_render::speech::options::{self, Options, Request};
use tenonwhisk_render::{system, target};

const WRONG_USAGE: u8 = 2;
const FAILED: u8 = 4;

fn main() -> ExitCode {
    system::watch_signals();
    let mut console = Console::new();
    ExitCode::from(match options::parse(std::env::args_os().skip(1)) {
        Ok(Request::Help) => print(options::HELP, &mut console),
        Ok(Request::Version) => print(options::VERSION, &mut console),
        Ok(Request::Decode(options)) => decode(&options, &mut console),
        Err(words) => {
            console.line(&format!("{words}; nothing was written"));
            console.line(options::USAGE);
            WRONG_USAGE
        }
    })
}

fn print(text: &str, console: &mut Console) -> u8 {
    match console::print(text) {
        Ok(()) => 0,
        Err(failure) => {
            console.line(&failure.to_string());
            FAILED
        }
    }
}

fn decode(options: &Options, console: &mut Console) -> u8 {
    let mut fate = target::untouched(&options.out);
    let decoded = Decoding::prepare(options, console).and_then(|decoding| {
        if decoding.writes_stream() {
            fate = target::INCOMPLETE.to_owned();
        }
        decoding.run()
    });
    match decoded {
        Ok(decoded) => {
            console.line(&decoded.tally.summary(&target::shown(&options.out), decoded.format, decoded.frames));
            decoded.tally.status()
        }
        Err(failure) => {
            console.line(&failure.to_string());
            console.line(&fate);
            FAILED
        }
    }
}
