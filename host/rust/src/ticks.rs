//! One tick, what it would answer, and runs under one held offer.

use std::error::Error;
use std::fmt;

use crate::{bytes, Answer, Refusal, Snapshot};

/// What the number says that a call gave.
pub(crate) fn said(number: u32) -> Result<Answer, Refusal> {
    Answer::from_number(number).ok_or_else(|| Refusal::given(number))
}

fn number_of(offer: Option<u16>) -> u32 {
    offer.map_or(bytes::NO_OFFER, u32::from)
}

/// One tick of the core, with an interrupt's vector offered, a word address, or none. A refused tick changes nothing.
///
/// ```
/// use avr_core::{tick, Answer, Refusal, Snapshot};
///
/// let mut snapshot = Snapshot::fresh(0x3FFF);
/// assert_eq!(tick(&mut snapshot, &[0x05, 0xE0], &mut [], None), Ok(Answer::Ran)); // LDI R16,5
/// assert_eq!((snapshot.register(16), snapshot.pc()), (Some(5), 1));
/// assert_eq!(tick(&mut snapshot, &[0x05, 0xE0], &mut [], None), Err(Refusal::Program));
/// ```
pub fn tick(snapshot: &mut Snapshot, program: &[u8], data: &mut [u8], offer: Option<u16>) -> Result<Answer, Refusal> {
    said(bytes::tick(snapshot, program, data, number_of(offer)))
}

/// What [`tick`] would give for the same, a refusal too. Nothing is changed, so it may be asked under one offer and another.
///
/// ```
/// use avr_core::{foretell, Answer, Refusal, Snapshot};
///
/// let mut snapshot = Snapshot::fresh(15);
/// snapshot.set_sreg(0x80); // I
/// assert_eq!(foretell(&snapshot, &[0, 0], &[0; 16], None), Ok(Answer::Ran)); // NOP
/// assert_eq!(foretell(&snapshot, &[0, 0], &[0; 16], Some(2)), Ok(Answer::Entered));
/// assert_eq!(foretell(&snapshot, &[0, 0], &[0; 15], Some(2)), Err(Refusal::Data));
/// ```
pub fn foretell(snapshot: &Snapshot, program: &[u8], data: &[u8], offer: Option<u16>) -> Result<Answer, Refusal> {
    said(bytes::foretell(snapshot, program, data, number_of(offer)))
}

/// How a run ended.
#[derive(Clone, Copy, PartialEq, Eq, Hash, Debug)]
pub struct Ran {
    /// Break, end or budget.
    pub answer: Answer,
    /// The ticks done; break and end count.
    pub ticks: u32,
}

/// That a run met a tick which is refused, or was refused before the first. Core and data stand as after the last tick done.
#[derive(Clone, Copy, PartialEq, Eq, Hash, Debug)]
pub struct Refused {
    /// Why.
    pub refusal: Refusal,
    /// The ticks done before; the refused one does not count.
    pub ticks: u32,
}

impl fmt::Display for Refused {
    fn fmt(&self, formatter: &mut fmt::Formatter) -> fmt::Result {
        write!(formatter, "refused-{} after {} ticks: {}", self.refusal.number(), self.ticks, self.refusal.words())
    }
}

impl Error for Refused {}

/// Up to `budget` ticks under one held offer. It ends at the budget, break, end or a refused tick; the ticks before that one are done.
///
/// ```
/// use avr_core::{run, Answer, Ran, Refusal, Refused, Snapshot};
///
/// let program = [0x05, 0xE0, 0x0F, 0x93]; // LDI R16,5; PUSH R16
/// let (mut snapshot, mut data) = (Snapshot::fresh(15), [0; 16]);
/// assert_eq!(run(&mut snapshot, &program, &mut data, None, 2), Ok(Ran { answer: Answer::Budget, ticks: 2 }));
/// assert_eq!(data[15], 5);
///
/// let refused = run(&mut Snapshot::fresh(16), &program, &mut data, None, 2).unwrap_err();
/// assert_eq!(refused, Refused { refusal: Refusal::Data, ticks: 1 });
/// assert_eq!(refused.to_string(), "refused-4 after 1 ticks: a data byte that is needed is not in data");
/// ```
pub fn run(snapshot: &mut Snapshot, program: &[u8], data: &mut [u8], offer: Option<u16>, budget: u32) -> Result<Ran, Refused> {
    let (number, ticks) = bytes::run(snapshot, program, data, number_of(offer), budget);
    said(number).map(|answer| Ran { answer, ticks }).map_err(|refusal| Refused { refusal, ticks })
}
