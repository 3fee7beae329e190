//! Runs driven by the ticks at which interrupts fired.

use std::error::Error;
use std::fmt;

use crate::ticks::said;
use crate::{bytes, Answer, Refusal, Snapshot};

/// An interrupt that fired: at which tick, the first of a run being 1, and its vector, a word address.
#[derive(Clone, Copy, PartialEq, Eq, Hash, Debug)]
pub struct Firing {
    tick: u32,
    vector: u16,
}

impl Firing {
    /// Nothing where the tick has more than 24 bits, which no schedule holds.
    ///
    /// ```
    /// use avr_core::Firing;
    /// let firing = Firing::new(100, 16).unwrap();
    /// assert_eq!((firing.tick(), firing.vector()), (100, 16));
    /// assert_eq!(Firing::new(0x100_0000, 16), None);
    /// ```
    pub const fn new(tick: u32, vector: u16) -> Option<Firing> {
        if tick >> 24 == 0 {
            Some(Firing { tick, vector })
        } else {
            None
        }
    }

    /// The tick at which it fired.
    ///
    /// ```
    /// assert_eq!(avr_core::Firing::new(100, 16).unwrap().tick(), 100);
    /// ```
    pub const fn tick(self) -> u32 {
        self.tick
    }

    /// Its vector, a word address.
    ///
    /// ```
    /// assert_eq!(avr_core::Firing::new(100, 16).unwrap().vector(), 16);
    /// ```
    pub const fn vector(self) -> u16 {
        self.vector
    }
}

/// How a run by a schedule ended.
#[derive(Clone, PartialEq, Eq, Hash, Debug)]
pub struct Scheduled {
    /// Break, end or budget.
    pub answer: Answer,
    /// The ticks done; break and end count.
    pub ticks: u32,
    /// For each firing the tick of its entry. Nothing where the run ended before one.
    pub entries: Vec<Option<u32>>,
}

/// That a run by a schedule met a tick which is refused, or was refused before the first. Core and data stand as after the last tick done.
#[derive(Clone, PartialEq, Eq, Hash, Debug)]
pub struct ScheduleRefused {
    /// Why.
    pub refusal: Refusal,
    /// The ticks done before; the refused one does not count.
    pub ticks: u32,
    /// For each firing the tick of its entry. Nothing where the run ended before one.
    pub entries: Vec<Option<u32>>,
}

impl fmt::Display for ScheduleRefused {
    fn fmt(&self, formatter: &mut fmt::Formatter) -> fmt::Result {
        write!(formatter, "refused-{} after {} ticks: {}", self.refusal.number(), self.ticks, self.refusal.words())
    }
}

impl Error for ScheduleRefused {}

/// Up to `budget` ticks driven by the ticks at which interrupts fired. The ticks are numbered from 1, and a firing is due at its tick and at every later one; at every tick the first that is due
/// and not yet entered is offered. It ends as [`run`](crate::run) does. Firings whose ticks are 0 or do not rise are refused with nothing run.
///
/// ```
/// use avr_core::{run_schedule, Answer, Firing, Refusal, Snapshot};
///
/// let program = [0x78, 0x94, 0xFF, 0xCF, 0x18, 0x95]; // SEI; RJMP to itself; at word 2 the handler: RETI
/// let firings = [Firing::new(4, 2).unwrap(), Firing::new(100, 2).unwrap()];
/// let (mut snapshot, mut data) = (Snapshot::fresh(15), [0; 16]);
/// let scheduled = run_schedule(&mut snapshot, &program, &mut data, &firings, 20).unwrap();
/// assert_eq!((scheduled.answer, scheduled.ticks, scheduled.entries), (Answer::Budget, 20, vec![Some(4), None]));
///
/// let twice = [firings[0], firings[0]];
/// let refused = run_schedule(&mut snapshot, &program, &mut data, &twice, 20).unwrap_err();
/// assert_eq!((refused.refusal, refused.ticks, refused.entries), (Refusal::ListTicks, 0, vec![None, None]));
/// ```
pub fn run_schedule(
    snapshot: &mut Snapshot,
    program: &[u8],
    data: &mut [u8],
    firings: &[Firing],
    budget: u32,
) -> Result<Scheduled, ScheduleRefused> {
    let mut entered = vec![0; firings.len()];
    let (number, ticks) = bytes::run_schedule(snapshot, program, data, &bytes::list_of(firings), budget, &mut entered);
    let entries = entered.into_iter().map(|tick| (tick != 0).then_some(tick)).collect();
    match said(number) {
        Ok(answer) => Ok(Scheduled { answer, ticks, entries }),
        Err(refusal) => Err(ScheduleRefused { refusal, ticks, entries }),
    }
}
