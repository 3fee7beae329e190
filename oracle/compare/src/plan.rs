//! Which case stands at which index: every second one from the lists that leave nothing out, the others drawn.

use original::{Case, State};

use crate::draw::{self, Long};
use crate::random::Random;
use crate::words::Words;

/// Instructions with the registers that they can name: the first and how many.
type Named = (&'static str, usize, usize);

const SINGLES: [Named; 8] =
    [("COM", 0, 32), ("NEG", 0, 32), ("INC", 0, 32), ("DEC", 0, 32), ("ASR", 0, 32), ("LSR", 0, 32), ("ROR", 0, 32), ("SWAP", 0, 32)];
const IMMEDIATES: [Named; 5] = [("SUBI", 16, 16), ("SBCI", 16, 16), ("CPI", 16, 16), ("ANDI", 16, 16), ("ORI", 16, 16)];
const PAIRS: [Named; 15] = [
    ("ADD", 0, 32),
    ("ADC", 0, 32),
    ("SUB", 0, 32),
    ("SBC", 0, 32),
    ("CP", 0, 32),
    ("CPC", 0, 32),
    ("AND", 0, 32),
    ("OR", 0, 32),
    ("EOR", 0, 32),
    ("MUL", 0, 32),
    ("MULS", 16, 16),
    ("MULSU", 16, 8),
    ("FMUL", 16, 8),
    ("FMULS", 16, 8),
    ("FMULSU", 16, 8),
];
const WORDS: [Named; 2] = [("ADIW", 24, 4), ("SBIW", 24, 4)];

pub struct Plan {
    seed: u64,
    pub words: Words,
}

/// A list that leaves nothing out: its name, its length and its case at an index.
struct Part {
    name: &'static str,
    len: u64,
    case: fn(&Words, usize, &mut Random) -> Case,
}

const PARTS: [Part; 6] = [
    Part { name: "every word, in four states each", len: 4 * 65_536, case: every_word },
    Part { name: "one register, both carries", len: 8 * 2 * 256, case: single },
    Part { name: "one register twice, both carries", len: 15 * 2 * 256, case: twice },
    Part { name: "register and constant, both carries", len: 5 * 2 * 65_536, case: immediate },
    Part { name: "two registers, both carries", len: 15 * 2 * 65_536, case: pair },
    Part { name: "ADIW and SBIW, every word and constant", len: 2 * 64 * 65_536, case: word },
];

impl Plan {
    pub fn new(seed: u64) -> Self {
        Plan { seed, words: Words::new() }
    }

    pub fn case(&self, index: u64) -> Case {
        let random = &mut Random::new(self.seed, index);
        if index % 2 == 1 {
            return draw::any(random, &self.words);
        }
        let mut left = index / 2;
        for part in &PARTS {
            if left < part.len {
                return (part.case)(&self.words, left as usize, random);
            }
            left -= part.len;
        }
        draw::any(random, &self.words)
    }

    /// Each list's name, how much of it the first `count` cases hold, and its length.
    pub fn coverage(count: u64) -> Vec<(&'static str, u64, u64)> {
        let mut left = count.div_ceil(2);
        let mut lines = Vec::new();
        for part in &PARTS {
            let done = left.min(part.len);
            left -= done;
            lines.push((part.name, done, part.len));
        }
        lines
    }
}

/// First every word where it is carried out, then in drawn states.
fn every_word(words: &Words, index: usize, random: &mut Random) -> Case {
    let word = index as u16;
    if index >= 65_536 {
        let long = Long::seldom(random);
        return draw::around(random, words, word, long);
    }
    let carry = random.below(2) as u8;
    let mut case = arithmetic(random, word, carry, &[(26, 128), (27, 0), (28, 64), (29, 0), (30, 0), (31, 0)]);
    case.program.extend([128, 0, 0, 0]);
    case.data = random.bytes(256);
    case.state.sp = 128;
    case
}

/// `word` at PC 0 and nothing in its way; the registers named, C as given, and the rest drawn.
fn arithmetic(random: &mut Random, word: u16, carry: u8, named: &[(usize, u8)]) -> Case {
    let mut regs: [u8; 32] = random.bytes(32).try_into().expect("32 bytes");
    for (register, value) in named {
        regs[*register] = *value;
    }
    let sreg = random.byte() & 0xFE | carry;
    let (inhibit, in_service) = (random.one_in(2), random.one_in(2));
    let state = State { regs, sreg, pc: 0, sp: random.word(), busy: 0, inhibit, in_service };
    Case { state, offer: None, program: word.to_le_bytes().to_vec(), data: Vec::new() }
}

/// Digits of `index`, the last one first, in the given bases.
fn digits<const N: usize>(mut index: usize, bases: [usize; N]) -> [usize; N] {
    bases.map(|base| {
        let digit = index % base;
        index /= base;
        digit
    })
}

fn single(words: &Words, index: usize, random: &mut Random) -> Case {
    let [a, carry, op] = digits(index, [256, 2, SINGLES.len()]);
    let (name, first, count) = SINGLES[op];
    let d = random.below(count);
    let word = words.patterns.named(name).word(&[('d', d as u16)], 0);
    arithmetic(random, word, carry as u8, &[(first + d, a as u8)])
}

fn twice(words: &Words, index: usize, random: &mut Random) -> Case {
    let [a, carry, op] = digits(index, [256, 2, PAIRS.len()]);
    let (name, first, count) = PAIRS[op];
    let d = random.below(count);
    let word = words.patterns.named(name).word(&[('d', d as u16), ('r', d as u16)], 0);
    arithmetic(random, word, carry as u8, &[(first + d, a as u8)])
}

fn immediate(words: &Words, index: usize, random: &mut Random) -> Case {
    let [a, constant, carry, op] = digits(index, [256, 256, 2, IMMEDIATES.len()]);
    let (name, first, count) = IMMEDIATES[op];
    let d = random.below(count);
    let word = words.patterns.named(name).word(&[('d', d as u16), ('K', constant as u16)], 0);
    arithmetic(random, word, carry as u8, &[(first + d, a as u8)])
}

fn pair(words: &Words, index: usize, random: &mut Random) -> Case {
    let [a, b, carry, op] = digits(index, [256, 256, 2, PAIRS.len()]);
    let (name, first, count) = PAIRS[op];
    let d = random.below(count);
    let r = (d + 1 + random.below(count - 1)) % count;
    let word = words.patterns.named(name).word(&[('d', d as u16), ('r', r as u16)], 0);
    arithmetic(random, word, carry as u8, &[(first + d, a as u8), (first + r, b as u8)])
}

/// The constants from both ends inwards, so that a shorter run has those that matter most.
fn word(words: &Words, index: usize, random: &mut Random) -> Case {
    let [low, high, op, turn] = digits(index, [256, 256, 2, 64]);
    let constant = if turn % 2 == 0 { turn / 2 } else { 63 - turn / 2 };
    let (name, first, count) = WORDS[op];
    let d = random.below(count);
    let word = words.patterns.named(name).word(&[('d', d as u16), ('K', constant as u16)], 0);
    let carry = random.below(2) as u8;
    arithmetic(random, word, carry, &[(first + 2 * d, low as u8), (first + 2 * d + 1, high as u8)])
}
