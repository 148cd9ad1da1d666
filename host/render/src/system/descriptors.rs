//! Which of the descriptors 0 to 2 were closed when the program started.
//!
//! Rust's runtime opens /dev/null in their place before `main`, so that no other file gets such a number. A closed standard
//! input would then look like an empty script, and a closed standard output would lose the sound. So this module looks
//! before the runtime does.

use std::ffi::c_int;
use std::sync::atomic::{AtomicBool, Ordering};

unsafe extern "C" {
    fn fcntl(descriptor: c_int, command: c_int, ...) -> c_int;
}

const F_GETFD: c_int = 1;

static CLOSED: [AtomicBool; 3] = [const { AtomicBool::new(false) }; 3];

#[used]
#[cfg_attr(target_vendor = "apple", link_section = "__DATA,__mod_init_func")]
#[cfg_attr(not(target_vendor = "apple"), link_section = ".init_array")]
static BEFORE_MAIN: extern "C" fn() = look;

extern "C" fn look() {
    for (descriptor, closed) in CLOSED.iter().enumerate() {
        // SAFETY: F_GETFD takes no further argument and only asks.
        let flags = unsafe { fcntl(descriptor as c_int, F_GETFD) };
        closed.store(flags == -1, Ordering::Relaxed);
    }
}

/// Whether the descriptor, 0 to 2, was closed when the program started.
pub fn was_closed(descriptor: usize) -> bool {
    CLOSED[descriptor].load(Ordering::Relaxed)
}
