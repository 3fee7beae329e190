//! The original, egb202/avremu at 5b9dd64d4f: cores.rs, memory.rs and cpuint.rs as they stand in the folder AVREMU_SRC, built unchanged.
//!
//! Beside them stand flat memories that panic outside their slice, one source of interrupts, and `tick`, which runs a case.

#[macro_use]
mod printed;
mod flat;
mod panics;
mod patterns;
mod tick;

pub use panics::Panic;
pub use patterns::{Pattern, Patterns};
pub use tick::{tick, Case, Outcome, State};

#[allow(dead_code, clippy::all)]
mod memory {
    include!(concat!(env!("AVREMU_FOLDER"), "/src/memory.rs"));
}

#[allow(dead_code, clippy::all)]
mod cores {
    include!(concat!(env!("AVREMU_FOLDER"), "/src/cores.rs"));

    /// A child module sees the private fields, so the source stays as it is.
    mod access;
    #[cfg(test)]
    mod decodes;
}

/// Of peripherals.rs, whose other modules aren't at hand, the one trait that cpuint.rs uses.
mod peripherals {
    pub trait InterruptSource {
        fn interrupt(&mut self, mask: u8) -> bool;
    }
}

#[allow(dead_code, clippy::all)]
mod cpuint {
    include!(concat!(env!("AVREMU_FOLDER"), "/src/peripherals/cpuint.rs"));

    /// As in `cores`.
    mod access;
}
