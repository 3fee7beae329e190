//! HEX files, into a program and out of it.

use std::error::Error;
use std::fmt;

use crate::{bytes, Refusal};

/// The longest program of a HEX file.
const LONGEST: usize = 65_536;

/// That a HEX file was not read.
#[derive(Clone, Copy, PartialEq, Eq, Hash, Debug)]
pub struct HexRefused {
    /// Why.
    pub refusal: Refusal,
    /// The refused line, counted from 1; 0 where it is the program that has too many bytes. A missing end record is named at the line after the last.
    pub line: usize,
}

impl fmt::Display for HexRefused {
    fn fmt(&self, formatter: &mut fmt::Formatter) -> fmt::Result {
        write!(formatter, "refused-{} at line {}: {}", self.refusal.number(), self.line, self.refusal.words())
    }
}

impl Error for HexRefused {}

/// Reads a HEX file into `program`; bytes that no line names become 0xFF. A refused file changes no byte.
///
/// ```
/// use avr_core::{hex_read, HexRefused, Refusal};
///
/// let mut program = [0; 4];
/// assert_eq!(hex_read(b":0200000005E019\n:00000001FF\n", &mut program), Ok(()));
/// assert_eq!(program, [0x05, 0xE0, 0xFF, 0xFF]);
///
/// let refused = hex_read(b":0200000005E018\n:00000001FF\n", &mut program).unwrap_err();
/// assert_eq!(refused, HexRefused { refusal: Refusal::LineSum, line: 1 });
/// assert_eq!(refused.to_string(), "refused-52 at line 1: the line's sum is wrong");
/// ```
pub fn hex_read(text: &[u8], program: &mut [u8]) -> Result<(), HexRefused> {
    match bytes::hex_read(text, program) {
        (0, _) => Ok(()),
        (number, line) => Err(HexRefused { refusal: Refusal::given(number), line }),
    }
}

/// The HEX file of all of `program`: 16 bytes a line, capitals, LF. Refused where it has more than 65,536 bytes.
///
/// ```
/// use avr_core::{hex_write, Refusal};
///
/// assert_eq!(hex_write(&[0x05, 0xE0]), Ok(b":0200000005E019\n:00000001FF\n".to_vec()));
/// assert_eq!(hex_write(&[0; 65_537]), Err(Refusal::ProgramLength));
/// ```
pub fn hex_write(program: &[u8]) -> Result<Vec<u8>, Refusal> {
    let mut text = vec![0; hex_bytes(program.len().min(LONGEST))];
    match bytes::hex_write(program, &mut text) {
        (0, _) => Ok(text),
        (number, _) => Err(Refusal::given(number)),
    }
}

/// The bytes of the HEX file of a program of `program_bytes` bytes, the room that [`bytes::hex_write`] needs.
///
/// ```
/// assert_eq!(avr_core::hex_bytes(2), ":0200000005E019\n:00000001FF\n".len());
/// ```
pub const fn hex_bytes(program_bytes: usize) -> usize {
    program_bytes * 2 + (program_bytes + 15) / 16 * 12 + 12
}
