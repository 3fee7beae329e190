//! The interrupt controller with one source, whose vector is the one offered.

use std::cell::RefCell;
use std::rc::Rc;

use super::{Cpuint, CPUINT_STATUS};
use crate::peripherals::InterruptSource;

impl Cpuint {
    pub fn serving(source: Rc<RefCell<dyn InterruptSource>>, vector: Option<u16>, in_service: bool) -> Self {
        let mut controller = Cpuint::new();
        controller.add_source(0, source, 0);
        controller.vectors[0] = vector.unwrap_or(0);
        controller.regs[CPUINT_STATUS] = in_service.into();
        controller
    }

    /// LVL0EX.
    pub fn in_service(&self) -> bool {
        self.regs[CPUINT_STATUS] & 0x01 != 0
    }
}
