//! The format of `answers`: a case in, an answer out.

use std::io::{Read, Result, Write};

use original::{Case, Outcome, State};

pub const NO_OFFER: u32 = 65_536;

/// The bit of a snapshot's last byte that says the rule. The original has none, and is what source means: cases are written with the bit clear, and it stays so.
pub const CHIP: u8 = 0x04;

/// What `answers` gives for a case. Anything but an answer leaves snapshot and data as they were.
#[derive(Clone, PartialEq, Eq, Debug)]
pub struct Answer {
    pub number: u8,
    pub snapshot: [u8; 38],
    pub data: Vec<u8>,
}

/// A core's bytes under source.
pub fn snapshot(state: &State) -> [u8; 38] {
    let mut bytes = [0; 38];
    bytes[..32].copy_from_slice(&state.regs);
    bytes[32] = state.sreg;
    bytes[33..35].copy_from_slice(&state.pc.to_be_bytes());
    bytes[35..37].copy_from_slice(&state.sp.to_be_bytes());
    bytes[37] = state.busy << 5 | u8::from(state.inhibit) << 4 | u8::from(state.in_service) << 3;
    bytes
}

/// A case by its bytes, so that wrong ones can be written too.
pub fn write_raw(to: &mut impl Write, snapshot: &[u8; 38], offer: u32, program: &[u8], data: &[u8]) -> Result<()> {
    to.write_all(snapshot)?;
    for number in [offer, program.len() as u32, data.len() as u32] {
        to.write_all(&number.to_be_bytes())?;
    }
    to.write_all(program)?;
    to.write_all(data)
}

pub fn write_case(to: &mut impl Write, case: &Case) -> Result<()> {
    let offer = case.offer.map_or(NO_OFFER, u32::from);
    write_raw(to, &snapshot(&case.state), offer, &case.program, &case.data)
}

pub fn read_answer(from: &mut impl Read, data_len: usize) -> Result<Answer> {
    let mut head = [0; 39];
    from.read_exact(&mut head)?;
    let mut data = vec![0; data_len];
    from.read_exact(&mut data)?;
    Ok(Answer { number: head[0], snapshot: head[1..].try_into().expect("38 bytes"), data })
}

impl Answer {
    /// A refused case's: nothing changed.
    pub fn refused(number: u8, case: &Case) -> Self {
        Answer { number, snapshot: snapshot(&case.state), data: case.data.clone() }
    }

    pub fn write(&self, to: &mut impl Write) -> Result<()> {
        to.write_all(&[self.number])?;
        to.write_all(&self.snapshot)?;
        to.write_all(&self.data)
    }
}

/// What the original's outcome asks for; of a refusal's number, which the original doesn't say, `port`'s where the panic allows it.
pub fn expected(case: &Case, outcome: &Outcome, port: u8) -> Option<Answer> {
    match outcome {
        Outcome::Done { answer, state, data } => Some(Answer { number: *answer, snapshot: snapshot(state), data: data.clone() }),
        Outcome::Panicked(panic) => panic.allows(port).then(|| Answer::refused(port, case)),
    }
}

/// The next whole case and its snapshot as written, of which the case has all but the rule; nothing where the input ends or a length is too large.
#[cfg(test)]
pub fn read_case(from: &mut &[u8]) -> Option<([u8; 38], Case)> {
    let mut take = |len: usize| {
        let (bytes, rest) = from.split_at_checked(len)?;
        *from = rest;
        Some(bytes)
    };
    let head: [u8; 38] = take(38)?.try_into().ok()?;
    let numbers: Vec<u32> = take(12)?.chunks(4).map(|bytes| u32::from_be_bytes(bytes.try_into().expect("4 bytes"))).collect();
    let (program, data) = (take(numbers[1] as usize)?.to_vec(), take(numbers[2] as usize)?.to_vec());
    let word = |at: usize| u16::from_be_bytes([head[at], head[at + 1]]);
    let state = State {
        regs: head[..32].try_into().expect("32 bytes"),
        sreg: head[32],
        pc: word(33),
        sp: word(35),
        busy: head[37] >> 5,
        inhibit: head[37] >> 4 & 1 == 1,
        in_service: head[37] >> 3 & 1 == 1,
    };
    Some((head, Case { state, offer: u16::try_from(numbers[0]).ok(), program, data }))
}
