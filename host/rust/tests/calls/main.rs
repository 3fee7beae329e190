//! The calls on cases by hand, over bytes and typed, and the typed ones against those over bytes.

mod bytes;
#[path = "../cores/mod.rs"]
mod cores;
#[path = "../hex/random.rs"]
mod random;
mod rules;
mod schedules;
mod typed;
