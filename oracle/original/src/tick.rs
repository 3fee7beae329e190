//! One tick of the original, and which of 01's answers it was.

use std::cell::RefCell;
use std::rc::Rc;

use crate::cores::{Core, CoreType};
use crate::cpuint::Cpuint;
use crate::flat::{Data, Program};
use crate::panics::{caught, Panic};
use crate::peripherals::InterruptSource;
use crate::printed;

#[derive(Clone, PartialEq, Eq, Debug)]
pub struct State {
    pub regs: [u8; 32],
    pub sreg: u8,
    pub pc: u16,
    pub sp: u16,
    pub busy: u8,
    pub inhibit: bool,
    pub in_service: bool,
}

#[derive(Clone, PartialEq, Eq, Debug)]
pub struct Case {
    pub state: State,
    pub offer: Option<u16>,
    pub program: Vec<u8>,
    pub data: Vec<u8>,
}

#[derive(Clone, PartialEq, Eq, Debug)]
pub enum Outcome {
    Panicked(Panic),
    Done { answer: u8, state: State, data: Vec<u8> },
}

/// Asks for an interrupt where a vector is offered, and knows whether it was served.
struct Source {
    offers: bool,
    served: bool,
}

impl InterruptSource for Source {
    fn interrupt(&mut self, _mask: u8) -> bool {
        self.served = self.offers;
        self.offers
    }
}

pub fn tick(case: &Case) -> Outcome {
    let program = Rc::new(RefCell::new(Program::new(case.program.clone())));
    let data = Rc::new(RefCell::new(Data(case.data.clone())));
    let source = Rc::new(RefCell::new(Source { offers: case.offer.is_some(), served: false }));
    let controller = Rc::new(RefCell::new(Cpuint::serving(source.clone(), case.offer, case.state.in_service)));
    let mut core = Core::new(CoreType::AVRxt, data.clone(), program, controller.clone(), case.state.sp);
    core.put(&case.state);

    printed::take();
    match caught(|| core.tick()) {
        Err(panic) => Outcome::Panicked(panic),
        Ok(goes_on) => {
            let answer = answer(case.state.busy > 0, source.borrow().served, goes_on, &printed::take());
            let state = core.state(controller.borrow().in_service());
            Outcome::Done { answer, state, data: data.take().0 }
        }
    }
}

/// 01's number of an answer that isn't a refusal.
fn answer(waits: bool, served: bool, goes_on: bool, lines: &[&str]) -> u8 {
    let printed = |text| lines.iter().filter(|line| **line == text).count();
    if waits {
        16
    } else if served {
        17
    } else if printed("[SLEEP]") == 1 {
        19
    } else if printed("[WDR]") == 1 {
        20
    } else if printed("[ERROR] Undefined opcode: {:b}") == 2 {
        // printed by decode and by tick; a skipped word, or one at PC 65,535, by decode alone
        21
    } else if printed("[END] BREAK instruction encountered.") == 1 {
        22
    } else if !goes_on {
        23
    } else {
        18
    }
}
