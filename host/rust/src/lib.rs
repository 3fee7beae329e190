//! A safe door to the proved AVR core of crates/host: ticks, runs, runs by an interrupt schedule, and HEX files.
//!
//! A core is a [`Snapshot`], with its fields by name; program and data are bytes that the host lends. Every input is taken. A call gives an [`Answer`], or as its error a [`Refusal`] with the
//! number of document 01 or 02; the module [`bytes`] has the same calls as C has them.
//!
//! ```
//! use avr_core::{run, Answer, Ran, Snapshot};
//!
//! let program = [0x05, 0xE0, 0x01, 0x96, 0x98, 0x95]; // LDI R16,5; ADIW R25:R24,1; BREAK
//! let (mut snapshot, mut data) = (Snapshot::fresh(0x3FFF), [0; 1024]);
//! assert_eq!(run(&mut snapshot, &program, &mut data, None, 10), Ok(Ran { answer: Answer::Break, ticks: 4 }));
//! assert_eq!(snapshot.register(16), Some(5));
//! ```
#![deny(missing_docs)]

mod answer;
pub mod bytes;
mod hex;
mod refusal;
mod schedule;
mod snapshot;
mod ticks;

pub use answer::Answer;
pub use hex::{hex_bytes, hex_read, hex_write, HexRefused};
pub use refusal::Refusal;
pub use schedule::{run_schedule, Firing, ScheduleRefused, Scheduled};
pub use snapshot::{Rule, Snapshot, SNAPSHOT_BYTES};
pub use ticks::{foretell, run, tick, Ran, Refused};

#[cfg(doctest)]
#[doc = include_str!("../README.md")]
struct ReadMe;
