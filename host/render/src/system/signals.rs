//! A signal that ends a run removes the temporary file, tells what became of the output, and kills the program.

use std::ffi::{c_char, c_int, c_void, CString};
use std::io::{self, IsTerminal};
use std::os::unix::ffi::OsStrExt;
use std::path::Path;
use std::ptr;
use std::sync::atomic::{AtomicBool, AtomicI32, AtomicPtr, Ordering::SeqCst};

unsafe extern "C" {
    fn signal(number: c_int, action: usize) -> usize;
    fn raise(number: c_int) -> c_int;
    fn unlink(path: *const c_char) -> c_int;
    fn write(descriptor: c_int, bytes: *const c_void, count: usize) -> isize;
}

const SIGHUP: c_int = 1;
const SIGINT: c_int = 2;
const SIGTERM: c_int = 15;
const SIGXFSZ: c_int = 25;

const SIG_DFL: usize = 0;
const SIG_IGN: usize = 1;

const STANDARD_ERROR: c_int = 2;

/// The fate of the output if a signal comes now.
pub enum Ending<'a> {
    /// Nothing is written, or only this temporary file.
    AsBefore(Option<&'a Path>),
    StreamBegun,
    Whole,
}

/// What the handler does before the program ends.
struct LastActs {
    temporary: Option<CString>,
    line: String,
}

/// What it points to is never freed, so that the handler may use it at any time.
static LAST_ACTS: AtomicPtr<LastActs> = AtomicPtr::new(ptr::null_mut());
static HELD_BACK: AtomicBool = AtomicBool::new(false);
/// The signal that came while signals were held back, or 0.
static CAME: AtomicI32 = AtomicI32::new(0);

/// Handles SIGHUP, SIGINT and SIGTERM, but leaves an ignored one ignored. Ignores SIGXFSZ, so that the file-size limit of
/// the process shows as a write error.
pub fn watch_signals() {
    set_ending(Ending::AsBefore(None));
    // SAFETY: `on_signal` has the type of a handler, and makes only calls that are allowed in one.
    unsafe {
        signal(SIGXFSZ, SIG_IGN);
        for number in [SIGHUP, SIGINT, SIGTERM] {
            if signal(number, SIG_IGN) != SIG_IGN {
                signal(number, on_signal as *const () as usize);
            }
        }
    }
}

/// Tells the handler what to remove and what to print from now on.
pub fn set_ending(ending: Ending) {
    let (temporary, words) = match ending {
        Ending::AsBefore(temporary) => (temporary, "the output is as it was before"),
        Ending::StreamBegun => (None, "what was written of the stream is incomplete"),
        Ending::Whole => (None, "the output is whole"),
    };
    let temporary = temporary.and_then(|path| CString::new(path.as_os_str().as_bytes()).ok());
    let over_progress = if io::stderr().is_terminal() { "\r" } else { "" };
    let acts = Box::new(LastActs { temporary, line: format!("{over_progress}interrupted; {words}\n") });
    LAST_ACTS.store(Box::into_raw(acts), SeqCst);
}

/// Does some short work and lets a signal wait until it is done.
pub fn uninterrupted<T>(work: impl FnOnce() -> T) -> T {
    HELD_BACK.store(true, SeqCst);
    let result = work();
    HELD_BACK.store(false, SeqCst);
    let came = CAME.swap(0, SeqCst);
    if came != 0 {
        // SAFETY: the signal is one of those watched; its handler ends the program.
        unsafe { raise(came) };
    }
    result
}

extern "C" fn on_signal(number: c_int) {
    if HELD_BACK.load(SeqCst) {
        CAME.store(number, SeqCst);
        return;
    }
    // SAFETY: `LAST_ACTS` is null or was made by `set_ending`, and is never freed. Its path is a C string, and pointer
    // and length of the line are those of one string. The four calls are allowed in a handler.
    unsafe {
        if let Some(acts) = LAST_ACTS.load(SeqCst).as_ref() {
            if let Some(temporary) = &acts.temporary {
                unlink(temporary.as_ptr());
            }
            write(STANDARD_ERROR, acts.line.as_ptr().cast(), acts.line.len());
        }
        signal(number, SIG_DFL);
        raise(number);
    }
}
