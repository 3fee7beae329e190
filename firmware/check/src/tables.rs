//! The cases of the images `crc` and `sort`, without interrupts: over the table that each was built with, and over random ones in its place.

use avr_core::Rule;

use crate::cases::{random_log, Verdict};
use crate::layout::{bytes_of, temperatures, with_log, with_temperatures, CRC, SORTED};
use crate::machine::Machine;
use crate::native;
use crate::random::Random;

const RANDOM: usize = 50;

/// What the program stored is what native C says.
fn same(program: &[u8], rule: Rule, native: &[u8]) -> Result<(), String> {
    let outcome = Machine::fresh(program, rule).finish(|_| false)?;
    if outcome.stored(native.len()) == native {
        return Ok(());
    }
    Err(format!("stored {:02X?}, native C {native:02X?}", outcome.stored(native.len())))
}

pub fn the_crc_of_an_image_and_its_log(rule: Rule) -> Verdict {
    if native::crc(b"123456789") != 0x29B1 {
        return Err("native C has another CRC".into());
    }
    let mut random = Random(0x5EED_0000_2026_1116);
    same(CRC, rule, &native::crc(CRC).to_le_bytes())?;
    for _ in 0..RANDOM {
        let program = with_log(CRC, &random_log(&mut random));
        same(&program, rule, &native::crc(&program).to_le_bytes())?;
    }
    Ok(format!("{} runs", 1 + RANDOM))
}

pub fn readings_sorted(rule: Rule) -> Verdict {
    let mut random = Random(0x5EED_0000_2026_1117);
    let mut days = vec![temperatures()];
    days.extend((0..RANDOM).map(|_| [0; SORTED].map(|_| random.below(65_536) as u16 as i16)));
    for day in &days {
        let mut expected = *day;
        expected.sort();
        if native::sorted(day) != expected {
            return Err("native C does not sort".into());
        }
        same(&with_temperatures(day), rule, &bytes_of(&expected))?;
    }
    Ok(format!("{} runs", days.len()))
}
