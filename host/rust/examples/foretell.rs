//! What the next tick would answer, with no interrupt offered and with one, asked of the same core before each tick: nothing changes until it ticks.
use avr_core::{foretell, tick, Answer, Refusal, Snapshot};

const PROGRAM: [u8; 8] = [0x78, 0x94, 0x05, 0xE0, 0x01, 0x96, 0x98, 0x95]; // SEI; LDI R16,5; ADIW R25:R24,1; BREAK
const VECTOR: u16 = 2;

fn main() -> Result<(), Refusal> {
    let (mut snapshot, mut data) = (Snapshot::fresh(15), [0; 16]);
    loop {
        let foretold = foretell(&snapshot, &PROGRAM, &data, None)?;
        let with_offer = foretell(&snapshot, &PROGRAM, &data, Some(VECTOR))?;
        println!("word {}: {}, with an offer {}", snapshot.pc(), foretold.number(), with_offer.number());
        let answer = tick(&mut snapshot, &PROGRAM, &mut data, None)?;
        assert_eq!(answer, foretold);
        if answer == Answer::Break {
            return Ok(());
        }
    }
}
