//! The check of what an ADPCM encoder made.
//!
//! [`options`] reads the command line, and [`sound`] the two files. [`judging`] asks the core for its verdict, and
//! [`report`] puts it in plain words.

pub mod judging;
pub mod options;
pub mod report;
pub mod sound;
