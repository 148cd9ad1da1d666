//! Messages on standard error, the progress if it is a terminal, and text on standard output.

use std::io::{self, IsTerminal, Write};
use std::time::{Duration, Instant};

use crate::failure::Failure;
use crate::{files, system};

const BETWEEN_PROGRESS: Duration = Duration::from_millis(200);

pub struct Console {
    terminal: bool,
    /// The width of the progress that the terminal shows, or 0.
    shown: usize,
    next_progress: Instant,
}

/// Writes to standard output.
pub fn print(text: &str) -> Result<(), Failure> {
    let mut output = io::stdout();
    match output.write_all(text.as_bytes()).and_then(|()| output.flush()) {
        Ok(()) if system::was_closed(1) => Err(Failure::writing(files::STANDARD_OUTPUT, &files::is_closed())),
        written => written.map_err(|error| Failure::writing(files::STANDARD_OUTPUT, &error)),
    }
}

impl Default for Console {
    fn default() -> Console {
        Console::new()
    }
}

impl Console {
    pub fn new() -> Console {
        Console { terminal: io::stderr().is_terminal(), shown: 0, next_progress: Instant::now() + BETWEEN_PROGRESS }
    }

    pub fn line(&mut self, words: &str) {
        let cleared = self.clearing();
        put(&format!("{cleared}{words}\n"));
    }

    /// Shows on a terminal, now and then, how far the run is.
    pub fn progress(&mut self, words: impl FnOnce() -> String) {
        if !self.terminal || Instant::now() < self.next_progress {
            return;
        }
        let words = format!("{:width$}", words(), width = self.shown);
        put(&format!("\r{words}"));
        self.shown = words.len();
        self.next_progress = Instant::now() + BETWEEN_PROGRESS;
    }

    /// Clears the progress, so that standard output may follow on the same terminal.
    pub fn clear(&mut self) {
        let cleared = self.clearing();
        put(&cleared);
    }

    /// The characters that clear the progress.
    fn clearing(&mut self) -> String {
        match std::mem::take(&mut self.shown) {
            0 => String::new(),
            width => format!("\r{:width$}\r", ""),
        }
    }
}

/// Ignores errors: the sound does not depend on whether anyone reads the messages.
fn put(text: &str) {
    let _ = io::stderr().write_all(text.as_bytes());
}
