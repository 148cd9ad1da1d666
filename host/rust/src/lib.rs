//! Tenonwhisk: a proved core of an old console's sound chip (SPU), over its C interface (`tenonwhisk.h`).
//!
//! [`Spu`] is the chip with its sound RAM, owned or lent. [`State`] is the rest of the chip, as plain halfwords. [`bank`]
//! looks up sounds in sound banks and writes banks. [`xa`] decodes speech. [`encoder`] checks what an encoder made. A
//! call that is refused returns a [`Refusal`] and changes nothing.
//!
//! The crate links the archive that the environment variable `TENONWHISK_LIB` names at build time. Without that variable
//! it links `target/host/libtenonwhisk.a` of its repository, which `host/build` makes. The archive is for x86-64 Linux.
//!
//! # Features
//!
//! The crate needs neither `std` nor an allocator.
//!
//! - `alloc`: a chip that owns its memory, `Spu::new`
//! - `std` (default): implies `alloc`

#![no_std]
#![deny(missing_docs)]
#![deny(unsafe_code)]
#![warn(unsafe_op_in_unsafe_fn)]

#[cfg(feature = "alloc")]
extern crate alloc;

pub mod bank;
pub mod encoder;
#[allow(unsafe_code)]
mod ffi;
mod refusal;
mod rejected;
mod spu;
mod state;
pub mod xa;

pub use refusal::Refusal;
pub use rejected::Rejected;
pub use spu::{Moved, Ran, Spu, Ticked};
pub use state::{Size, State};

/// The version of this crate, and of the interface in `tenonwhisk.h`.
pub const VERSION: &str = env!("CARGO_PKG_VERSION");
