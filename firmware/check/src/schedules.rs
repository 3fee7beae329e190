//! The cases of the second image run by a schedule, one call for each run: the ticks at which the timer fired are a list.

use avr_core::Rule;

use crate::cases::{random_log, same_under_timer, Verdict};
use crate::layout::{log_of, with_log, Log, HEAT_INDEX_TIMER};
use crate::machine::{Followed, Machine};
use crate::random::Random;

/// Entries come in the list's order, none before its firing; what was not entered stands behind.
fn in_order(fired: &[u32], entries: &[Option<u32>]) -> bool {
    let entered: Vec<u32> = entries.iter().map_while(|&tick| tick).collect();
    let rise = entered.windows(2).all(|pair| pair[0] < pair[1]);
    rise && fired.iter().zip(&entered).all(|(fired, entered)| fired <= entered) && entries[entered.len()..].iter().all(Option::is_none)
}

/// What holds of every list: the report, an overflow counted for each entry, and the order of the entries.
fn follow(program: &[u8], rule: Rule, log: &Log, fired: &[u32], what: &str) -> Result<Followed, String> {
    let followed = Machine::fresh(program, rule).follow(fired)?;
    same_under_timer(&followed.outcome, log, what)?;
    if !in_order(fired, &followed.entered) {
        return Err(format!("{what}: fired at {fired:?}, entered at {:?}", followed.entered));
    }
    Ok(followed)
}

/// One firing, at each tick of the undisturbed run in turn. All ends alike, registers and flags too.
pub fn the_timer_image_by_a_schedule_an_entry_at_every_place(rule: Rule) -> Verdict {
    let log = log_of(HEAT_INDEX_TIMER);
    let undisturbed = Machine::fresh(HEAT_INDEX_TIMER, rule).finish(|_| false)?;
    let ticks = follow(HEAT_INDEX_TIMER, rule, &log, &[], "no firing")?.ticks;
    for tick in 1..=ticks {
        let outcome = follow(HEAT_INDEX_TIMER, rule, &log, &[tick], &format!("fired at tick {tick}"))?.outcome;
        if outcome.snapshot != undisturbed.snapshot || outcome.entries != 1 {
            return Err(format!("fired at tick {tick}: ends with {:02X?}", outcome.snapshot));
        }
    }
    Ok(format!("{ticks} runs"))
}

/// Up to 200 firings, dense or sparse; the last ones may be behind the end of the run.
fn firings(random: &mut Random) -> Vec<u32> {
    let (count, most) = (random.below(201), 1 + random.below(200));
    let gaps = (0..count).map(|_| 1 + random.below(most));
    gaps.scan(0, |tick, gap| {
        *tick += gap;
        Some(*tick)
    })
    .collect()
}

/// Readings corrected at random, and the timer's firings at random ticks.
pub fn corrected_logs_by_random_schedules(rule: Rule) -> Verdict {
    let (mut random, mut all, mut entries) = (Random(0x5EED_0000_2026_1118), 0, 0);
    for number in 0..1_000 {
        let (log, fired) = (random_log(&mut random), firings(&mut random));
        let outcome = follow(&with_log(HEAT_INDEX_TIMER, &log), rule, &log, &fired, &format!("log {number}"))?.outcome;
        all += fired.len();
        entries += usize::from(outcome.entries);
    }
    Ok(format!("1000 runs, {entries} of {all} firings entered"))
}
