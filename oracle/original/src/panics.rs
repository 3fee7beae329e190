//! The original's panics, caught and told apart, and silent while a tick runs.

use std::any::Any;
use std::cell::Cell;
use std::panic::{catch_unwind, panic_any, resume_unwind, set_hook, take_hook, AssertUnwindSafe};
use std::sync::Once;

/// What a tick panicked by: a byte outside program or data, or a sum or difference that doesn't fit.
#[derive(Clone, Copy, PartialEq, Eq, Debug)]
pub enum Panic {
    Program,
    Sum,
    Difference,
    Data,
}

impl Panic {
    /// Whether a refusal's number may stand for it. The original stops at the first panic and 01 gives the lowest number that applies, so
    /// it is at most that of the panic: 1 program, 2 a sum of PC, 3 a sum or difference of SP, 4 data.
    pub fn allows(self, number: u8) -> bool {
        let highest = match self {
            Panic::Program => 1,
            Panic::Sum | Panic::Difference => 3,
            Panic::Data => 4,
        };
        (1..=highest).contains(&number)
    }
}

thread_local! {
    static SILENT: Cell<bool> = const { Cell::new(false) };
}

pub fn outside(memory: Panic) -> ! {
    panic_any(memory)
}

/// `run`'s result, or what it panicked by. A panic of another kind is a fault of this program and goes on.
pub fn caught<T>(run: impl FnOnce() -> T) -> Result<T, Panic> {
    silence();
    SILENT.set(true);
    let result = catch_unwind(AssertUnwindSafe(run));
    SILENT.set(false);
    result.map_err(|payload| kind(payload.as_ref()).unwrap_or_else(|| resume_unwind(payload)))
}

fn kind(payload: &(dyn Any + Send)) -> Option<Panic> {
    if let Some(memory) = payload.downcast_ref::<Panic>() {
        return Some(*memory);
    }
    match *payload.downcast_ref::<&str>()? {
        "attempt to add with overflow" => Some(Panic::Sum),
        "attempt to subtract with overflow" => Some(Panic::Difference),
        _ => None,
    }
}

fn silence() {
    static ONCE: Once = Once::new();
    ONCE.call_once(|| {
        let loud = take_hook();
        set_hook(Box::new(move |info| {
            if !SILENT.get() {
                loud(info);
            }
        }));
    });
}
