//! Cases made by hand: 01's bench sheet, each line with its number of ticks, and the top of the program.

use original::{Case, State};

use crate::draw::PROGRAM;
use crate::words::Words;

/// A fresh core with `words` at PC 0 and no data.
pub fn fresh(words: &[u16]) -> Case {
    let state = State { regs: [0; 32], sreg: 0, pc: 0, sp: 0, busy: 0, inhibit: false, in_service: false };
    let program = words.iter().flat_map(|word| word.to_le_bytes()).collect();
    Case { state, offer: None, program, data: Vec::new() }
}

fn with(words: &[u16], change: impl FnOnce(&mut Case)) -> Case {
    let mut case = fresh(words);
    change(&mut case);
    case
}

/// LDI R16, 5; no program; an entry.
pub fn first() -> [Case; 3] {
    let load = with(&[0xE005], |case| case.state.sp = 0x3FFF);
    let nothing = with(&[], |case| {
        case.state.sp = 0x3FFF;
        case.data = vec![0x11, 0x22];
    });
    let entry = with(&[], |case| {
        case.state = State { sreg: 0x80, pc: 0x1234, sp: 0x0003, ..case.state.clone() };
        case.offer = Some(0x0042);
        case.data = vec![0; 4];
    });
    [load, nothing, entry]
}

pub fn sheet(words: &Words) -> Vec<(Case, usize)> {
    let mut lines = arithmetic(words);
    lines.extend(memory(words));
    lines
}

/// Lines 1 to 7.
fn arithmetic(words: &Words) -> Vec<(Case, usize)> {
    let word = |name: &str, fields: &[(char, u16)]| words.patterns.named(name).word(fields, 0);
    let of = |word: u16, regs: &[(usize, u8)]| with(&[word], |case| regs.iter().for_each(|(reg, value)| case.state.regs[*reg] = *value));
    let compares = [word("CP", &[('d', 16), ('r', 17)]), word("CPC", &[('d', 18), ('r', 19)])];
    let compared = with(&compares, |case| case.state.regs[16..20].copy_from_slice(&[0xFF, 0x00, 0x00, 0x01]));
    vec![
        (of(0x0C00, &[]), 1),
        (of(0x0000, &[]), 1),
        (of(0x0001, &[]), 1),
        (of(word("ADIW", &[('d', 0), ('K', 1)]), &[(24, 0x01), (25, 0x80)]), 2),
        (compared, 2),
        (of(compares[0], &[(16, 0x80), (17, 0x01)]), 1),
        (of(word("NEG", &[('d', 16)]), &[(16, 0x80)]), 1),
        (of(word("NEG", &[('d', 16)]), &[]), 1),
        (of(word("MULSU", &[('d', 0), ('r', 1)]), &[(16, 0x80), (17, 0xFF)]), 2),
        (of(word("FMULS", &[('d', 0), ('r', 1)]), &[(16, 0x80), (17, 0x80)]), 2),
        (of(0xCFFE, &[]), 3),
    ]
}

/// Lines 8 to 13.
fn memory(words: &Words) -> Vec<(Case, usize)> {
    let word = |name: &str, fields: &[(char, u16)]| words.patterns.named(name).word(fields, 0);
    let (call, jump) = (word("CALL", &[]), word("JMP", &[]));
    let stack = |words: &[u16], sp, len| {
        with(words, |case| {
            case.state.sp = sp;
            case.data = vec![0x55; len];
        })
    };
    let load = |name, fields: &[(char, u16)], pointer: usize, value: u16, len| {
        with(&[word(name, fields)], |case| {
            case.state.regs[pointer..pointer + 2].copy_from_slice(&value.to_le_bytes());
            case.data = vec![0; len];
            case.data[len - 1] = 0x77;
        })
    };
    let entry = with(&[], |case| {
        case.state = State { sreg: 0x80, pc: 0x1234, sp: 0x0200, ..case.state.clone() };
        case.offer = Some(0x0042);
        case.data = vec![0; 0x0201];
    });
    vec![
        (stack(&[word("PUSH", &[('r', 5)])], 0, 1), 1),
        (stack(&[call, 7], 2, 3), 3),
        (stack(&[call, 7], 1, 3), 1),
        (load("LDDY", &[('d', 0), ('q', 63)], 28, 65_535, 65_536), 1),
        (load("LDXinc", &[('d', 26)], 26, 0x0100, 0x0101), 3),
        (load("LDXdec", &[('d', 26)], 26, 0x0101, 0x0101), 3),
        (entry, 5),
        (with(&[word("SBRS", &[('r', 0), ('b', 0)]), jump, 9], |case| case.state.regs[0] = 1), 3),
    ]
}

/// Refusal 2, each of whose cases needs the whole program, and what may stand at the top.
pub fn top(words: &Words) -> Vec<Case> {
    let word = |name: &str| words.patterns.named(name).word(&[], 0);
    let at = |pc: u16, words: &[u16]| {
        let mut case = fresh(words);
        case.program.splice(..0, vec![0; 2 * usize::from(pc)]);
        case.program.resize(PROGRAM, 0);
        case.state.pc = pc;
        case.state.sp = 2;
        case.data = vec![0; 3];
        case
    };
    vec![
        at(65_534, &[word("CALL"), 0x0001]),
        at(65_534, &[word("LDS"), 0x0001]),
        at(65_534, &[word("JMP"), 0x0001]),
        at(65_534, &[word("CPSE"), 0x0000]),
        at(65_533, &[word("CPSE"), word("STS"), 0x0000]),
    ]
}
