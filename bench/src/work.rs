//! What is measured: a program run from a fresh core again and again.

use crate::clock::processor_time;

/// A program, the vector held offered, the length of its data, and the ticks of a pass.
pub struct Work {
    pub name: &'static str,
    pub about: &'static str,
    pub image: Vec<u8>,
    pub vector: Option<u16>,
    pub data_bytes: usize,
    pub pass: Pass,
}

/// Where a pass ends: one tick before BREAK, where the original would print a line, or after that many ticks of a loop.
pub enum Pass {
    ToBreak,
    Ticks(u32),
}

const DATA_BYTES: usize = 16_384;
/// How often a pass goes round a loop.
const ROUNDS: u32 = 100;
const RJMP_TICKS: u32 = 2;
const NOP: u16 = 0x0000;
const ADD_R16_R17: u16 = 0x0F01;
const CP_R16_R18: u16 = 0x1702;
const CPC_R17_R19: u16 = 0x0713;
const ADIW_R24_1: u16 = 0x9601;

pub fn works() -> Vec<Work> {
    vec![
        image("heat_index", "no offer", include_bytes!("../../firmware/heat_index.bin"), None),
        image("heat_index_timer", "its vector offered at every tick", include_bytes!("../../firmware/heat_index_timer.bin"), Some(16)),
        image("crc", "no offer", include_bytes!("../../firmware/crc.bin"), None),
        image("sort", "no offer", include_bytes!("../../firmware/sort.bin"), None),
        looped("add", "1,024 times ADD R16,R17 and RJMP", &[ldi(16, 0x12), ldi(17, 0x35)], &[ADD_R16_R17].repeat(1024), 1024),
        looped(
            "cp_cpc",
            "512 times CP R16,R18 and CPC R17,R19, and RJMP",
            &[ldi(16, 0x34), ldi(17, 0x12), ldi(18, 0x78), ldi(19, 0x12)],
            &[CP_R16_R18, CPC_R17_R19].repeat(512),
            1024,
        ),
        looped("adiw", "1,024 times ADIW R24,1, of two ticks each, and RJMP", &[], &[ADIW_R24_1].repeat(1024), 2048),
    ]
}

fn image(name: &'static str, about: &'static str, image: &[u8], vector: Option<u16>) -> Work {
    Work { name, about, image: image.to_vec(), vector, data_bytes: DATA_BYTES, pass: Pass::ToBreak }
}

/// LDIs that set registers, and a body of that many ticks that is gone round again and again. Two words stand behind, which the original reads ahead.
fn looped(name: &'static str, about: &'static str, start: &[u16], body: &[u16], body_ticks: u32) -> Work {
    let words = [start, body, &[rjmp_back(body.len()), NOP, NOP]].concat();
    let image = words.into_iter().flat_map(u16::to_le_bytes).collect();
    let ticks = start.len() as u32 + ROUNDS * (body_ticks + RJMP_TICKS);
    Work { name, about, image, vector: None, data_bytes: DATA_BYTES, pass: Pass::Ticks(ticks) }
}

fn ldi(register: u16, value: u16) -> u16 {
    0xE000 | (value >> 4) << 8 | (register - 16) << 4 | value & 15
}

/// To the first of that many words before it.
fn rjmp_back(words: usize) -> u16 {
    0xC000 | (words as u16 + 1).wrapping_neg() & 0x0FFF
}

pub trait Machine {
    /// A fresh core; data stays.
    fn restart(&mut self);
    /// That many ticks; whether none of them stopped.
    fn go(&mut self, ticks: u32) -> bool;
    fn registers(&self) -> [u8; 32];
    fn data(&self) -> Vec<u8>;
    /// None where it is not shown.
    fn pc(&self) -> Option<u16>;
}

/// That many passes of `ticks` ticks each.
pub fn go(machine: &mut dyn Machine, passes: u32, ticks: u32) {
    for _ in 0..passes {
        machine.restart();
        assert!(machine.go(ticks), "a pass stopped early");
    }
}

/// Ticks a second of that many passes.
pub fn speed(machine: &mut dyn Machine, passes: u32, ticks: u32) -> f64 {
    let start = processor_time();
    go(machine, passes, ticks);
    f64::from(passes) * f64::from(ticks) / (processor_time() - start)
}
