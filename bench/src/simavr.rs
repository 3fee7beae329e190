//! simavr through bench/simavr.c. Its cycles are another chip's, so that an image's pass is that of as many cycles as it takes to BREAK; ticks are always the port's.

use crate::work::{Machine, Pass, Work};

#[repr(C)]
pub struct Avr {
    opaque: [u8; 0],
}

extern "C" {
    fn simavr_open(image: *const u8, length: usize) -> *mut Avr;
    fn simavr_restart(avr: *mut Avr);
    fn simavr_go(avr: *mut Avr, cycles: u32) -> i32;
    fn simavr_cycles_to_break(avr: *mut Avr) -> u32;
    fn simavr_read(avr: *const Avr, registers: *mut u8, data: *mut u8, length: usize) -> u16;
}

pub struct Simavr {
    avr: *mut Avr,
    cycles: u32,
    data_bytes: usize,
}

impl Simavr {
    /// None for a work with an offer: simavr has no offer that is held, it would have to be raised from here after each return.
    pub fn new(work: &Work) -> Option<Self> {
        if work.vector.is_some() {
            return None;
        }
        // The image is copied. The core is never freed; it lives as long as this program.
        let avr = unsafe { simavr_open(work.image.as_ptr(), work.image.len()) };
        assert!(!avr.is_null(), "simavr has no such chip");
        let cycles = match work.pass {
            Pass::Ticks(ticks) => ticks,
            Pass::ToBreak => unsafe { simavr_cycles_to_break(avr) },
        };
        Some(Simavr { avr, cycles, data_bytes: work.data_bytes })
    }

    /// Registers, data and PC.
    fn read(&self) -> ([u8; 32], Vec<u8>, u16) {
        let (mut registers, mut data) = ([0; 32], vec![0; self.data_bytes]);
        // Both have the length that is named, and the chip has more data than that.
        let pc = unsafe { simavr_read(self.avr, registers.as_mut_ptr(), data.as_mut_ptr(), data.len()) };
        (registers, data, pc)
    }
}

impl Machine for Simavr {
    fn restart(&mut self) {
        unsafe { simavr_restart(self.avr) }
    }

    fn go(&mut self, _ticks: u32) -> bool {
        unsafe { simavr_go(self.avr, self.cycles) != 0 }
    }

    fn registers(&self) -> [u8; 32] {
        self.read().0
    }

    fn data(&self) -> Vec<u8> {
        self.read().1
    }

    fn pc(&self) -> Option<u16> {
        Some(self.read().2)
    }
}
