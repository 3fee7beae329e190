//! An image on the core, a tick at a time, with the timer's vector offered or not; or in one call, by the ticks at which the timer fired.

use avr_core::{Answer, Firing, Rule, Snapshot};

use crate::layout::{Report, OVERFLOWS_PLACE, REPORT_BYTES, REPORT_PLACE, TIMER_VECTOR};

const MOST_TICKS: u32 = 1_000_000;

/// What stands at the end of a run.
pub struct Outcome {
    pub report: Report,
    pub snapshot: Snapshot,
    pub entries: u16,
    pub overflows: u16,
    data: Vec<u8>,
}

impl Outcome {
    /// So many bytes from where an image stores its result.
    pub fn stored(&self, bytes: usize) -> &[u8] {
        &self.data[REPORT_PLACE..][..bytes]
    }
}

/// The same of a run by a schedule, with the tick of each entry, and how many ticks the run took.
pub struct Followed {
    pub outcome: Outcome,
    pub entered: Vec<Option<u32>>,
    pub ticks: u32,
}

#[derive(Clone)]
pub struct Machine<'a> {
    program: &'a [u8],
    snapshot: Snapshot,
    data: Vec<u8>,
    entries: u16,
}

impl<'a> Machine<'a> {
    /// A fresh core with this rule. Data is not zero, so that an image which reads what it did not write shows.
    pub fn fresh(program: &'a [u8], rule: Rule) -> Self {
        let mut snapshot = Snapshot::fresh(0);
        snapshot.set_rule(rule);
        Machine { program, snapshot, data: vec![0xA5; 16_384], entries: 0 }
    }

    /// Whether the next tick would execute the instruction at `place`.
    pub fn is_about_to_run(&self, place: u16) -> bool {
        self.snapshot.pc() == place && self.snapshot.busy() == 0
    }

    /// Whether the handler was entered and has returned.
    pub fn has_returned(&self) -> bool {
        self.entries > 0 && !self.snapshot.in_service()
    }

    pub fn entries(&self) -> u16 {
        self.entries
    }

    /// The fault that the story turns on: the flags as a compare of equals in the handler leaves them, Z set and C clear.
    pub fn lose_flags(&mut self) {
        self.snapshot.set_sreg(self.snapshot.sreg() & 0x80 | 0x02);
    }

    /// One tick: whether the image goes on.
    pub fn tick(&mut self, offered: bool) -> Result<bool, String> {
        let place = self.snapshot.pc();
        match avr_core::tick(&mut self.snapshot, self.program, &mut self.data, offered.then_some(TIMER_VECTOR)) {
            Ok(Answer::Waited | Answer::Ran) => Ok(true),
            Ok(Answer::Entered) => {
                self.entries += 1;
                Ok(true)
            }
            Ok(Answer::Break) => Ok(false),
            Ok(other) => Err(format!("{other} at PC {place:04X}")),
            Err(refusal) => Err(format!("{refusal}, at PC {place:04X}")),
        }
    }

    /// Runs to BREAK; `offered` says before each tick whether the vector is offered.
    pub fn finish(mut self, mut offered: impl FnMut(&mut Machine) -> bool) -> Result<Outcome, String> {
        for _ in 0..MOST_TICKS {
            let offer = offered(&mut self);
            if !self.tick(offer)? {
                return Ok(self.outcome());
            }
        }
        Err(format!("no BREAK in {MOST_TICKS} ticks"))
    }

    /// Runs to BREAK by the ticks at which the timer fired.
    pub fn follow(mut self, fired: &[u32]) -> Result<Followed, String> {
        let firings: Option<Vec<Firing>> = fired.iter().map(|&tick| Firing::new(tick, TIMER_VECTOR)).collect();
        let firings = firings.ok_or("a tick of more than 24 bits")?;
        let scheduled = avr_core::run_schedule(&mut self.snapshot, self.program, &mut self.data, &firings, MOST_TICKS);
        let scheduled = scheduled.map_err(|refused| refused.to_string())?;
        if scheduled.answer != Answer::Break {
            return Err(format!("{} after {} ticks", scheduled.answer, scheduled.ticks));
        }
        self.entries = scheduled.entries.iter().flatten().count() as u16;
        Ok(Followed { outcome: self.outcome(), entered: scheduled.entries, ticks: scheduled.ticks })
    }

    fn outcome(self) -> Outcome {
        let report = self.data[REPORT_PLACE..][..REPORT_BYTES].try_into().expect("that length");
        let overflows = u16::from_le_bytes([self.data[OVERFLOWS_PLACE], self.data[OVERFLOWS_PLACE + 1]]);
        Outcome { report, snapshot: self.snapshot, entries: self.entries, overflows, data: self.data }
    }
}
