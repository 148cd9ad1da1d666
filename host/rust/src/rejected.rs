use core::error::Error;
use core::fmt;

use crate::{Refusal, State};

/// Why [`Spu::with_memory`](crate::Spu::with_memory) was refused, and everything that was handed to it.
///
/// It turns into its [`Refusal`], so `?` works in a function that returns one.
pub struct Rejected<M> {
    /// Why.
    pub refusal: Refusal,
    /// The state.
    pub state: State,
    /// Sound RAM.
    pub ram: M,
    /// The marks.
    pub marks: M,
}

impl<M: AsRef<[u8]>> fmt::Debug for Rejected<M> {
    fn fmt(&self, f: &mut fmt::Formatter<'_>) -> fmt::Result {
        f.debug_struct("Rejected")
            .field("refusal", &self.refusal)
            .field("state", &self.state)
            .field("ram_bytes", &self.ram.as_ref().len())
            .field("marks_bytes", &self.marks.as_ref().len())
            .finish_non_exhaustive()
    }
}

impl<M> fmt::Display for Rejected<M> {
    fn fmt(&self, f: &mut fmt::Formatter<'_>) -> fmt::Result {
        self.refusal.fmt(f)
    }
}

impl<M: AsRef<[u8]>> Error for Rejected<M> {}

impl<M> From<Rejected<M>> for Refusal {
    fn from(rejected: Rejected<M>) -> Refusal {
        rejected.refusal
    }
}
