//! XA speech: sectors of a disc, decoded to a WAV file.
//!
//! [`options`] reads the command line. [`kind`] finds out what the sectors of a file are, [`survey`] which sounds they
//! hold, and [`input`] chooses one. [`sector`] knows what a sector says of itself. [`decoding`] leads a run, [`faults`]
//! says what is wrong with a sector, and [`tally`] counts.

pub mod decoding;
pub mod faults;
pub mod input;
pub mod kind;
pub mod options;
pub mod sector;
pub mod survey;
pub mod tally;
