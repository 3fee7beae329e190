//! The heat index of a day worked out again as it was in the field: the ticks at which the sample timer fired are a list, and the logger's image is run by it. A firing waits for its entry while
//! the image has interrupts off, and while the handler of the one before is busy; where neither is so, at most seven ticks (docs/CYCLES.md). The hottest hour has to be the one that is worked out when no timer fires.
use avr_core::{run_schedule, Answer, Firing, Scheduled, Snapshot};
use std::error::Error;

const IMAGE: &[u8] = include_bytes!("../../../firmware/heat_index_timer.bin");
const TIMER: u16 = 16; // its vector, a word address
const HOTTEST: usize = 0x3800 + 53; // where the report has the index of the hottest hour, in hundredths, low byte first

/// How the run ended, and the index of the hottest hour.
fn rerun(fired: &[u32]) -> Result<(Scheduled, u16), Box<dyn Error>> {
    let firings: Option<Vec<Firing>> = fired.iter().map(|&tick| Firing::new(tick, TIMER)).collect();
    let (mut snapshot, mut data) = (Snapshot::fresh(0), vec![0; 16_384]);
    let scheduled = run_schedule(&mut snapshot, IMAGE, &mut data, &firings.ok_or("a tick of more than 24 bits")?, 1_000_000)?;
    if scheduled.answer != Answer::Break {
        return Err(format!("the image ends with {}", scheduled.answer).into());
    }
    Ok((scheduled, u16::from_le_bytes([data[HOTTEST], data[HOTTEST + 1]])))
}

fn main() -> Result<(), Box<dyn Error>> {
    let fired = [100, 900, 950, 2_000, 9_000];
    let ((_, undisturbed), (scheduled, hottest)) = (rerun(&[])?, rerun(&fired)?);
    for (fired, entered) in fired.iter().zip(scheduled.entries) {
        match entered {
            None => println!("fired at tick {fired}: not entered"),
            Some(tick) => println!("fired at tick {fired}: entered at tick {tick}, {} later", tick - fired),
        }
    }
    println!("answer {} after {} ticks", scheduled.answer.number(), scheduled.ticks);
    println!("hottest hour {}.{:02}", hottest / 100, hottest % 100);
    if hottest == undisturbed {
        Ok(())
    } else {
        Err("another hottest hour than undisturbed".into())
    }
}
