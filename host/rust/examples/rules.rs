//! What the rule changes, under source and under chip: SREG after ADIW R25:R24,1 on 0x8001 (line 2 of document 01's bench sheet), and the sample that a handler takes which
//! waits while SEI and ST X,R16 run.
use avr_core::{run, tick, Refusal, Refused, Rule, Snapshot};
use std::error::Error;

const ADIW: [u8; 2] = [0x01, 0x96];
const ROUTINE: [u8; 10] = [0x78, 0x94, 0x0C, 0x93, 0x10, 0x91, 0x00, 0x00, 0x18, 0x95]; // SEI; ST X,R16; at word 2 the handler: LDS R17,0; RETI
const HANDLER: u16 = 2;

fn fresh(rule: Rule, sp: u16) -> Snapshot {
    let mut snapshot = Snapshot::fresh(sp);
    snapshot.set_rule(rule);
    snapshot
}

fn sreg_after_adiw(rule: Rule) -> Result<u8, Refusal> {
    let mut snapshot = fresh(rule, 0x3FFF);
    snapshot.registers_mut()[24..26].copy_from_slice(&[0x01, 0x80]);
    tick(&mut snapshot, &ADIW, &mut [], None)?;
    Ok(snapshot.sreg())
}

/// The old sample is 05, the new one 2A; the vector is offered at each of eight ticks.
fn sample_taken(rule: Rule) -> Result<u8, Refused> {
    let (mut snapshot, mut data) = (fresh(rule, 15), [0; 16]);
    snapshot.registers_mut()[16] = 0x2A;
    data[0] = 0x05;
    run(&mut snapshot, &ROUTINE, &mut data, Some(HANDLER), 8)?;
    Ok(snapshot.registers()[17])
}

fn main() -> Result<(), Box<dyn Error>> {
    for (name, rule) in [("source", Rule::Source), ("chip", Rule::Chip)] {
        println!("{name}: SREG {:02X}, sample {:02X}", sreg_after_adiw(rule)?, sample_taken(rule)?);
    }
    Ok(())
}
