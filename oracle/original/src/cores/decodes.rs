//! `decode`, built with the stand-ins, against the pattern texts read by `Patterns`: arm and fields of all 65,536 words.

use std::collections::BTreeMap;

use super::Instruction;
use crate::{Pattern, Patterns};

type Reading = (String, BTreeMap<String, i64>);

const FROM_16: [&str; 11] = ["ANDI", "CPI", "FMUL", "FMULS", "FMULSU", "LDI", "MULS", "MULSU", "ORI", "SBCI", "SUBI"];

/// What decode's arm makes of a field's bits, and of the second word.
fn value(name: &str, letter: char, bits: i64, second: u16) -> i64 {
    match (name, letter) {
        ("ADIW" | "SBIW", 'd') => 2 * bits + 24,
        ("MOVW", _) => 2 * bits,
        ("BRBC" | "BRBS", 'k') => signed(bits, 7),
        ("RCALL" | "RJMP", 'k') => signed(bits, 12),
        ("CALL" | "JMP", 'k') => 65_536 * bits + i64::from(second),
        (_, 'd' | 'r') if FROM_16.contains(&name) => bits + 16,
        _ => bits,
    }
}

fn signed(bits: i64, width: u32) -> i64 {
    if bits < 1 << (width - 1) {
        bits
    } else {
        bits - (1 << width)
    }
}

fn expected(pattern: Option<&Pattern>, word: u16, second: u16) -> Reading {
    let Some(pattern) = pattern else { return ("UNDEF".into(), BTreeMap::new()) };
    let of = |letter| value(pattern.name, letter, pattern.field(letter, word).into(), second);
    let mut fields: BTreeMap<String, i64> = pattern.letters().into_iter().map(|letter| (letter.into(), of(letter))).collect();
    if ["LDS", "STS"].contains(&pattern.name) {
        fields.insert("k".into(), second.into());
    }
    (pattern.name.into(), fields)
}

/// From `BRBC { s: 1, k: -3 }`.
fn reading(shown: &str) -> Reading {
    let mut parts = shown.split([' ', '{', '}', ':', ',']).filter(|part| !part.is_empty());
    let name = parts.next().unwrap().into();
    let mut fields = BTreeMap::new();
    while let Some(letter) = parts.next() {
        fields.insert(letter.into(), parts.next().unwrap().parse().unwrap());
    }
    (name, fields)
}

#[test]
fn every_word_has_the_arm_and_the_fields_of_its_text() {
    let patterns = Patterns::read();
    assert_eq!(patterns.list().len(), 86);
    for word in 0..=u16::MAX {
        for second in [0x0000, 0x9ABC, 0xFFFF] {
            let first = patterns.list().iter().find(|pattern| pattern.fits(word));
            let decoded = format!("{:?}", Instruction::decode(word, second));
            assert_eq!(reading(&decoded), expected(first, word, second), "word {word:04X}");
        }
        crate::printed::take();
    }
}
