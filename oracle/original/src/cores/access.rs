//! The core's fields, put and read from outside.

use super::Core;
use crate::State;

impl Core {
    pub fn put(&mut self, state: &State) {
        self.regs = state.regs;
        self.sreg = state.sreg;
        self.pc = state.pc;
        self.sp = state.sp;
        self.busy = state.busy;
        self.interupt_inhibit = state.inhibit;
    }

    /// The in-service flag is the controller's.
    pub fn state(&self, in_service: bool) -> State {
        State { regs: self.regs, sreg: self.sreg, pc: self.pc, sp: self.sp, busy: self.busy, inhibit: self.interupt_inhibit, in_service }
    }
}
