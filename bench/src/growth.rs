//! One call of 10,000 to 1,000,000,000 ticks of a loop: what a tick takes should not depend on how many there are.

use crate::work::{go, speed, Work};
use crate::{machines, refuse, Named};

/// How many ticks, and in how many rounds they are timed.
const BUDGETS: [(u32, usize); 6] = [(10_000, 9), (100_000, 9), (1_000_000, 9), (10_000_000, 9), (100_000_000, 3), (1_000_000_000, 1)];

/// Those that make ticks of the port: not simavr; and a call of `avr_tick` makes one tick.
fn one_call(work: &Work) -> Vec<Named> {
    machines(work).into_iter().filter(|(name, _)| *name == "original" || name.starts_with("avr_run")).collect()
}

fn median(mut times: Vec<f64>) -> f64 {
    times.sort_by(f64::total_cmp);
    times[times.len() / 2]
}

/// All take turns, as in main.rs.
fn nanoseconds(machines: &mut [Named], ticks: u32, rounds: usize) -> Vec<f64> {
    let mut times = vec![vec![]; machines.len()];
    for _ in 0..rounds {
        for (times, (_, machine)) in times.iter_mut().zip(machines.iter_mut()) {
            times.push(1e9 / speed(machine.as_mut(), 1, ticks));
        }
    }
    times.into_iter().map(median).collect()
}

pub fn time(work: &Work) {
    println!("{}, {}, in one call: nanoseconds a tick, the median of so many rounds", work.name, work.about);
    let mut machines = one_call(work);
    for (ticks, rounds) in BUDGETS {
        let times = nanoseconds(&mut machines, ticks, rounds);
        let told: Vec<String> = machines.iter().zip(times).map(|((name, _), time)| format!("{name} {time:.2}")).collect();
        println!("  {ticks:10} ticks, rounds {rounds}: {}", told.join(" "));
    }
}

/// For a program around this one that counts instructions.
pub fn once(work: &Work, name: &str, ticks: u32) {
    let mut machines = one_call(work);
    let (_, machine) = machines.iter_mut().find(|(other, _)| *other == name).unwrap_or_else(|| refuse());
    go(machine.as_mut(), 1, ticks);
    println!("{ticks}");
}
