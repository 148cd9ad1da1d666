//! `render [OPTIONS] SCRIPT OUT`: the sound of a script, as a WAV file.
//!
//! `render --help` describes options, script lines and exit status. In short:
//!
//! - A script is what the program `bench` reads, and more: `w OFFSET VALUE` writes a register, `s V ..` moves halfwords
//!   to sound RAM, `t N` sounds for N ticks, `l ADDRESS FILE` loads a file to sound RAM, `b NUMBER` moves a sound of a
//!   sound bank there, and `#` begins a comment.
//! - The program reports a line that is bad or refused, and leaves it out. It also reports the first tick from which the
//!   sound may rest on memory that nobody loaded.
//! - The sound goes to a temporary file beside the target, which takes the target's place when it is whole. So a run that
//!   fails or is interrupted leaves what was there before. The program never replaces a file that is not a WAV file, nor
//!   one that it also reads.
//! - Standard output, devices and FIFOs get the sound while it is rendered.
//! - The exit status is a sum: 1 the sound is in doubt, 2 lines were bad or refused, 4 failed.

#![deny(unsafe_code)]

use std::process::ExitCode;

use tenonwhisk_render::console::{self, Console};
use tenonwhisk_render::findings::{Findings, FAILED};
use tenonwhisk_render::options::{self, Options, Request};
use tenonwhisk_render::rendering::Rendering;
use tenonwhisk_render::{system, target};

fn main() -> ExitCode {
    system::watch_signals();
    let mut console = Console::new();
    ExitCode::from(match options::parse(std::env::args_os().skip(1)) {
        Ok(Request::Help) => print(options::HELP, &mut console),
        Ok(Request::Version) => print(options::VERSION, &mut console),
        Ok(Request::Render(options)) => render(&options, &mut console),
        Err(words) => {
            console.line(&format!("{words}; nothing was written"));
            console.line(options::USAGE);
            FAILED
        }
    })
}

fn print(text: &str, console: &mut Console) -> u8 {
    match console::print(text) {
        Ok(()) => 0,
        Err(failure) => {
            console.line(&failure.to_string());
            FAILED
        }
    }
}

fn render(options: &Options, console: &mut Console) -> u8 {
    let mut findings = Findings::default();
    let mut fate = target::untouched(&options.out);
    let rendered = Rendering::prepare(options, console, &mut findings).and_then(|rendering| {
        if rendering.writes_stream() {
            fate = target::INCOMPLETE.to_owned();
        }
        rendering.run()
    });
    match rendered {
        Ok(pairs) => {
            console.line(&findings.summary(&target::shown(&options.out), pairs));
            findings.status()
        }
        Err(failure) => {
            console.line(&failure.to_string());
            console.line(&fate);
            findings.status() + FAILED
        }
    }
}
