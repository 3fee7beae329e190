//! Runs the images on the proved core, under source and under chip, and compares what they stored with what a native build of the same C stores.
//! Its last line is 'N passed, M failed'.

mod cases;
mod compare;
mod layout;
mod machine;
mod native;
mod random;
mod schedules;
mod tables;

use avr_core::Rule;
use std::process::ExitCode;

type Case = (&'static str, fn(Rule) -> cases::Verdict);

const RULES: [(&str, Rule); 2] = [("source", Rule::Source), ("chip", Rule::Chip)];

const CASES: [Case; 10] = [
    ("without interrupts", cases::without_interrupts),
    ("an offer held at every tick", cases::an_offer_held_at_every_tick),
    ("an entry from every tick", cases::an_entry_from_every_tick),
    ("two stamps an hour apart, compared across an interrupt", cases::two_stamps_an_hour_apart_compared_across_an_interrupt),
    ("the old fault sets 14:00 against 13:00", cases::the_old_fault_sets_14_00_against_13_00),
    ("corrected logs under random offers", cases::corrected_logs_under_random_offers),
    ("the timer image by a schedule, an entry at every place", schedules::the_timer_image_by_a_schedule_an_entry_at_every_place),
    ("corrected logs by random schedules", schedules::corrected_logs_by_random_schedules),
    ("the CRC of an image and its log", tables::the_crc_of_an_image_and_its_log),
    ("readings sorted", tables::readings_sorted),
];

fn main() -> ExitCode {
    let mut failed = 0;
    for ((rule_name, rule), (name, case)) in RULES.into_iter().flat_map(|rule| CASES.map(|case| (rule, case))) {
        match case(rule) {
            Ok(compared) => println!("{rule_name}, {name}: {compared}"),
            Err(difference) => {
                failed += 1;
                println!("failed: {rule_name}, {name}: {difference}");
            }
        }
    }
    println!("{} passed, {failed} failed", RULES.len() * CASES.len() - failed);
    ExitCode::from(u8::from(failed > 0))
}
