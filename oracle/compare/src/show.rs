//! Cases and answers as lines to be read. Zeros are left out.

use original::{Case, Outcome};

use crate::wire::{snapshot, Answer, CHIP};

pub fn case(case: &Case) -> String {
    let offer = case.offer.map_or("none".into(), |vector| vector.to_string());
    let (program, data) = (&case.program, &case.data);
    format!(
        "{}\noffer {offer}\nprogram of {} bytes:{}\ndata of {} bytes:{}",
        core(&snapshot(&case.state)),
        program.len(),
        set(program),
        data.len(),
        set(data)
    )
}

pub fn outcome(outcome: &Outcome) -> String {
    match outcome {
        Outcome::Panicked(panic) => format!("panic, {panic:?}"),
        Outcome::Done { answer, state, data } => answered(*answer, &snapshot(state), data),
    }
}

pub fn answer(answer: &Answer) -> String {
    answered(answer.number, &answer.snapshot, &answer.data)
}

fn answered(number: u8, snapshot: &[u8; 38], data: &[u8]) -> String {
    format!("answer {number}, {}, data{}", core(snapshot), set(data))
}

fn core(snapshot: &[u8; 38]) -> String {
    let word = |at: usize| u16::from_be_bytes([snapshot[at], snapshot[at + 1]]);
    let last = snapshot[37];
    let rule = if last & CHIP == 0 { "source" } else { "chip" };
    format!(
        "registers{} SREG {:02X} PC {:04X} SP {:04X} busy {} inhibit {} in-service {} rule {rule}",
        set(&snapshot[..32]),
        snapshot[32],
        word(33),
        word(35),
        last >> 5,
        last >> 4 & 1,
        last >> 3 & 1
    )
}

/// The bytes that aren't 0, each with its place; at most 32.
fn set(bytes: &[u8]) -> String {
    let set = bytes.iter().enumerate().filter(|(_, byte)| **byte != 0);
    set.take(32).map(|(place, byte)| format!(" {place}:{byte:02X}")).collect()
}
