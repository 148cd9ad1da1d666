//! What the programs `render`, `bank`, `xa` and `encheck` are made of.
//!
//! `render` turns a script into a WAV file. [`options`] reads its command line; [`source`] and [`target`] find out what
//! the names stand for. [`rendering`] leads a run: [`script`], [`banks`], [`cd`] with [`wav_in`], and [`load`] read, and
//! [`output`] with [`temporary`] and [`wav`] writes. [`findings`] keeps what was wrong.
//!
//! `bank` lists a sound bank: [`listing`]. Both programs read banks with [`banks`] and say with [`damage`] what is wrong
//! with them.
//!
//! `xa` decodes XA sectors to a WAV file: [`speech`]. It writes as `render` does.
//!
//! `encheck` checks what an encoder made of a WAV file: [`encoding`].
//!
//! [`arguments`] takes command lines apart, and [`clashes`] finds names that stand for one file. [`console`], [`failure`]
//! and [`words`] make messages, [`files`] knows names and links, [`whole`] reads all of a file, and [`system`] handles
//! signals.

#![deny(unsafe_code)]

pub mod arguments;
pub mod banks;
pub mod cd;
pub mod clashes;
pub mod console;
pub mod damage;
pub mod encoding;
pub mod failure;
pub mod files;
pub mod findings;
pub mod listing;
pub mod load;
pub mod options;
pub mod output;
pub mod rendering;
pub mod script;
pub mod source;
pub mod speech;
#[allow(unsafe_code)]
pub mod system;
pub mod target;
pub mod temporary;
pub mod wav;
pub mod wav_in;
pub mod whole;
pub mod words;
