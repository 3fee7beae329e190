//! Flat memories. Outside its slice each panics, with 01's one exception for words of the program.

use crate::memory::MemoryMapped;
use crate::panics::{outside, Panic};

#[derive(Default)]
pub struct Data(pub Vec<u8>);

impl MemoryMapped for Data {
    fn get_size(&self) -> usize {
        self.0.len()
    }

    fn read(&mut self, address: usize) -> (u8, usize) {
        (*self.0.get(address).unwrap_or_else(|| outside(Panic::Data)), 0)
    }

    fn write(&mut self, address: usize, value: u8) -> usize {
        *self.0.get_mut(address).unwrap_or_else(|| outside(Panic::Data)) = value;
        0
    }
}

/// The program of one tick. It counts the bytes read, since the exception goes by the order of the reads.
pub struct Program {
    bytes: Vec<u8>,
    reads: usize,
    opcode: u16,
    top: bool,
}

impl Program {
    pub fn new(bytes: Vec<u8>) -> Self {
        Program { bytes, reads: 0, opcode: 0, top: false }
    }

    /// Whether the byte read now may be missing, and then reads 0. Words are fetched in this order: the opcode, the word behind it, and
    /// for a taken skip the word to be skipped and the word behind that. LPM's byte comes after two words.
    fn may_be_missing(&self) -> bool {
        match self.reads / 2 {
            0 => self.top,
            1 => self.top || !uses_second_word(self.opcode),
            2 => false,
            _ => true,
        }
    }
}

impl MemoryMapped for Program {
    fn get_size(&self) -> usize {
        self.bytes.len()
    }

    fn read(&mut self, address: usize) -> (u8, usize) {
        if self.reads == 0 {
            self.top = address == 2 * 65_535;
        }
        let byte = match self.bytes.get(address) {
            Some(byte) => *byte,
            None if self.may_be_missing() => 0,
            None => outside(Panic::Program),
        };
        if self.reads < 2 {
            self.opcode |= u16::from(byte) << (8 * self.reads);
        }
        self.reads += 1;
        (byte, 0)
    }

    fn write(&mut self, _: usize, _: u8) -> usize {
        unreachable!("no instruction writes to the program")
    }
}

/// CALL and JMP, LDS and STS.
fn uses_second_word(opcode: u16) -> bool {
    opcode & 0xFE0C == 0x940C || opcode & 0xFC0F == 0x9000
}
