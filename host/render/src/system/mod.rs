//! Signals and closed standard streams, which the standard library does not cover. This module holds all unsafe code.

mod descriptors;
mod signals;

pub use descriptors::was_closed;
pub use signals::{set_ending, uninterrupted, watch_signals, Ending};
