//! Random cases, with 01's limits drawn often.

use original::{Case, State};

use crate::random::Random;
use crate::words::Words;

/// The longest program and data that `answers` takes.
pub const PROGRAM: usize = 131_072;
pub const DATA: usize = 66_000;

/// Which of the two memories are drawn long. Each costs as much as a hundred other cases.
#[derive(Clone, Copy)]
pub struct Long {
    pub program: bool,
    pub data: bool,
}

impl Long {
    pub const NONE: Long = Long { program: false, data: false };

    pub fn seldom(random: &mut Random) -> Self {
        Long { program: random.one_in(100), data: random.one_in(100) }
    }
}

/// Any case at all.
pub fn any(random: &mut Random, words: &Words) -> Case {
    let long = Long::seldom(random);
    let word = match long {
        _ if random.one_in(4) => words.any(random),
        Long { program: true, .. } => words.of_two_words_or_skip(random),
        Long { data: true, .. } => words.of_memory(random),
        _ => words.any(random),
    };
    around(random, words, word, long)
}

/// A case with `word` at PC, where the program reaches that far.
pub fn around(random: &mut Random, words: &Words, word: u16, long: Long) -> Case {
    let len = data_len(random, long.data);
    let data = random.bytes(len);
    let pc = pc(random, long.program);
    let second = second(random, words, len);
    let program = program(random, pc, [word, second], long.program);
    let mut regs = registers(random);
    for pointer in [26, 28, 30] {
        put(&mut regs, pointer, address(random, len));
    }
    if random.one_in(4) {
        put(&mut regs, 30, address(random, program.len()));
    }
    let busy = if random.one_in(10) { 1 + random.below(4) as u8 } else { 0 };
    let (inhibit, in_service) = (random.one_in(4), random.one_in(4));
    let state = State { regs, sreg: random.byte(), pc, sp: address(random, len), busy, inhibit, in_service };
    Case { state, offer: offer(random), program, data }
}

fn put(regs: &mut [u8; 32], low: usize, value: u16) {
    [regs[low], regs[low + 1]] = value.to_le_bytes();
}

fn data_len(random: &mut Random, long: bool) -> usize {
    if long {
        return random.of(&[65_535, 65_536, 65_536, 65_536, 65_537, 65_599, DATA]);
    }
    match random.below(4) {
        0 => random.below(300),
        1 => random.of(&[31, 33, 61, 62, 63, 65, 257]),
        _ => random.of(&[0, 1, 2, 32, 64, 256]),
    }
}

fn pc(random: &mut Random, long: bool) -> u16 {
    if long {
        return if random.one_in(5) { random.word() } else { random.of(&[65_533, 65_533, 65_534, 65_534, 65_535]) };
    }
    match random.below(20) {
        0..=11 => random.below(8) as u16,
        12..=14 => 0,
        15..=16 => random.below(300) as u16,
        17 => random.word(),
        _ => random.of(&[65_533, 65_534, 65_535]),
    }
}

/// The word behind the opcode: one that a skip skips by two, an address, or any.
fn second(random: &mut Random, words: &Words, data_len: usize) -> u16 {
    match random.below(3) {
        0 => words.of_two_words(random),
        1 => address(random, data_len),
        _ => random.word(),
    }
}

/// `words` at `pc`, cut short in one of them or not. A short program doesn't reach a high PC.
fn program(random: &mut Random, pc: u16, words: [u16; 2], long: bool) -> Vec<u8> {
    let at = 2 * usize::from(pc);
    let cut = at + random.of(&[0, 1, 2, 3, 4, 5, 6, 8, 8, 8, 8, 8]);
    let len = match long {
        true if random.one_in(4) => cut.min(PROGRAM),
        true => PROGRAM,
        false if pc < 300 => cut,
        false => random.below(24),
    };
    let mut program = random.bytes(len);
    for (place, byte) in words.iter().flat_map(|word| word.to_le_bytes()).enumerate() {
        if let Some(there) = program.get_mut(at + place) {
            *there = byte;
        }
    }
    program
}

/// Any bytes, bytes at limits among them, or the same byte everywhere (two equal registers take CPSE's skip).
fn registers(random: &mut Random) -> [u8; 32] {
    let mut regs: [u8; 32] = random.bytes(32).try_into().expect("32 bytes");
    match random.below(4) {
        0 => regs = [regs[0]; 32],
        1 => regs.iter_mut().for_each(|reg| *reg = random.of(&[0x00, 0x01, 0x7F, 0x80, 0xFF, *reg])),
        _ => {}
    }
    regs
}

/// An address in a memory of `len` bytes, or at one of the ends, or at SREG and SP.
fn address(random: &mut Random, len: usize) -> u16 {
    let end = len as u16;
    match random.below(12) {
        0 => random.of(&[0, 1, 2]),
        1 => random.of(&[65_533, 65_534, 65_535]),
        2 => random.of(&[0x1F, 0x20, 0x3C, 0x3D, 0x3E, 0x3F, 0x40]),
        3 => end.wrapping_add(2).wrapping_sub(random.below(6) as u16),
        4 => end.wrapping_sub(random.below(66) as u16),
        5 => random.word(),
        _ => random.below(len.max(1)) as u16,
    }
}

fn offer(random: &mut Random) -> Option<u16> {
    let vector = random.word();
    random.one_in(3).then(|| random.of(&[0, 65_535, vector, vector]))
}
