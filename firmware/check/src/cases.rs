//! The cases, each under a rule. Each says what it compared, or the first difference.

use avr_core::Rule;

use crate::compare::{places, PLACES};
use crate::layout::{log, log_of, with_log, Log, Reading, HEAT_INDEX, HEAT_INDEX_TIMER, LOG_PLACE};
use crate::machine::{Machine, Outcome};
use crate::native;
use crate::random::Random;

pub type Verdict = Result<String, String>;

const NOON: u32 = 1_784_030_400;
const HOUR: u32 = 3_600;

fn same_report(outcome: &Outcome, log: &Log, what: &str) -> Result<(), String> {
    let native = native::report(log);
    if outcome.report == native {
        return Ok(());
    }
    Err(format!("{what}: stored {:02X?}, native C {native:02X?}", outcome.report))
}

/// As `same_report`, for the second image: its handler must also have run once for each entry.
pub fn same_under_timer(outcome: &Outcome, log: &Log, what: &str) -> Result<(), String> {
    if outcome.overflows != outcome.entries {
        return Err(format!("{what}: {} entries, the handler counted {}", outcome.entries, outcome.overflows));
    }
    same_report(outcome, log, what)
}

pub fn without_interrupts(rule: Rule) -> Verdict {
    for image in [HEAT_INDEX, HEAT_INDEX_TIMER] {
        let outcome = Machine::fresh(image, rule).finish(|_| false)?;
        same_report(&outcome, &log_of(image), "no offer")?;
    }
    Ok("2 runs".into())
}

pub fn an_offer_held_at_every_tick(rule: Rule) -> Verdict {
    let outcome = Machine::fresh(HEAT_INDEX_TIMER, rule).finish(|_| true)?;
    same_under_timer(&outcome, &log_of(HEAT_INDEX_TIMER), "held")?;
    if outcome.entries < 1_000 {
        return Err(format!("only {} entries", outcome.entries));
    }
    Ok(format!("1 run, {} entries", outcome.entries))
}

/// From each tick of the undisturbed run on, the vector is offered until it is entered. All ends alike, registers and flags too.
pub fn an_entry_from_every_tick(rule: Rule) -> Verdict {
    let (mut machine, log) = (Machine::fresh(HEAT_INDEX_TIMER, rule), log_of(HEAT_INDEX_TIMER));
    let undisturbed = machine.clone().finish(|_| false)?;
    for tick in 0.. {
        let outcome = machine.clone().finish(|machine| machine.entries() == 0)?;
        same_under_timer(&outcome, &log, &format!("tick {tick}"))?;
        if outcome.snapshot != undisturbed.snapshot || outcome.entries != 1 {
            return Err(format!("tick {tick}: ends with {:02X?}", outcome.snapshot));
        }
        if !machine.tick(false)? {
            return Ok(format!("{} runs", tick + 1));
        }
    }
    unreachable!()
}

/// The story's log: a temperature of 13:00, and no humidity but that of 14:00.
fn an_hour_apart() -> Log {
    log(&[(NOON + HOUR, 301)], &[(NOON + 2 * HOUR, 49)])
}

/// Interrupts at every choice of the five places of the compare, over the story's log and the image's own.
pub fn two_stamps_an_hour_apart_compared_across_an_interrupt(rule: Rule) -> Verdict {
    let places = places(&HEAT_INDEX_TIMER[..LOG_PLACE])?;
    for log in [an_hour_apart(), log_of(HEAT_INDEX_TIMER)] {
        let program = with_log(HEAT_INDEX_TIMER, &log);
        for choice in 0..1 << PLACES {
            let chosen =
                |machine: &mut Machine| (0..PLACES).any(|place| choice >> place & 1 == 1 && machine.is_about_to_run(places[place]));
            let outcome = Machine::fresh(&program, rule).finish(chosen)?;
            same_under_timer(&outcome, &log, &format!("choice {choice:05b}"))?;
            if (outcome.entries == 0) != (choice == 0) {
                return Err(format!("choice {choice:05b}: {} entries", outcome.entries));
            }
        }
    }
    Ok(format!("{} runs", 2 << PLACES))
}

/// The emulator of the story: it comes out of the interrupt with changed flags. The case above would see it.
pub fn the_old_fault_sets_14_00_against_13_00(rule: Rule) -> Verdict {
    let program = with_log(HEAT_INDEX_TIMER, &an_hour_apart());
    let wrongly_paired = native::report(&log(&[(NOON + HOUR, 301)], &[(NOON + HOUR, 49)]));
    for (step, place) in places(&HEAT_INDEX_TIMER[..LOG_PLACE])?.into_iter().enumerate() {
        let mut faulty = false;
        let outcome = Machine::fresh(&program, rule).finish(|machine| {
            if machine.has_returned() && !std::mem::replace(&mut faulty, true) {
                machine.lose_flags();
            }
            machine.entries() == 0 && machine.is_about_to_run(place)
        })?;
        // The two low bytes differ, so flags lost before they are compared are set again.
        if (outcome.report == wrongly_paired) != (step >= 2) {
            return Err(format!("step {step}: stored {:02X?}", outcome.report));
        }
    }
    Ok(format!("{PLACES} runs"))
}

fn readings(random: &mut Random, lowest: i16, values: u32) -> Vec<Reading> {
    let count = random.below(9);
    (0..count).map(|_| (NOON + HOUR * random.below(12), lowest + random.below(values) as i16)).collect()
}

pub fn random_log(random: &mut Random) -> Log {
    log(&readings(random, -400, 1_001), &readings(random, 0, 101))
}

/// Readings corrected at random, and the vector offered at random ticks.
pub fn corrected_logs_under_random_offers(rule: Rule) -> Verdict {
    let mut random = Random(0x5EED_0000_2026_1115);
    for number in 0..1_000 {
        let log = random_log(&mut random);
        let every = 1 + random.below(200);
        let program = with_log(HEAT_INDEX_TIMER, &log);
        let outcome = Machine::fresh(&program, rule).finish(|_| random.below(every) == 0)?;
        same_under_timer(&outcome, &log, &format!("log {number}"))?;
    }
    Ok("1000 runs".into())
}
