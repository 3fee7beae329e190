//! The original (a plain release build), the port, and where they are there the port before a change and simavr, over the works of work.rs, in one program.
//! Without words: ticks a second, in turns. `names`: a line for each work and machine. `passes WORK MACHINE TIMES`: some passes of one of them TIMES times, for
//! a program around this one that counts instructions; prints the ticks. `growth` and `once MACHINE TICKS`: see growth.rs.

#[cfg(feature = "before")]
mod before;
mod clock;
mod growth;
mod original;
mod port;
#[cfg(feature = "simavr")]
mod simavr;
mod work;

use std::env;
use std::process::exit;

use original::Original;
use port::{ticks_of, Port, Present};
use work::{go, speed, works, Machine, Work};

/// The ticks of a round of the clock, and of a count of instructions.
const TIMED_TICKS: u32 = 5_000_000;
const COUNTED_TICKS: u32 = 500_000;
const ROUNDS: usize = 9;

type Named = (&'static str, Box<dyn Machine>);

/// The original first, then the port.
#[cfg_attr(not(any(feature = "before", feature = "simavr")), allow(unused_mut))]
fn machines(work: &Work) -> Vec<Named> {
    let mut machines: Vec<Named> = vec![
        ("original", Box::new(Original::new(work))),
        ("avr_run", Box::new(Port::<Present>::new(work, Port::run))),
        ("avr_tick", Box::new(Port::<Present>::new(work, Port::ticks))),
    ];
    #[cfg(feature = "before")]
    machines.extend([
        ("avr_run before", Box::new(Port::<before::Before>::new(work, Port::run)) as Box<dyn Machine>),
        ("avr_tick before", Box::new(Port::<before::Before>::new(work, Port::ticks))),
    ]);
    #[cfg(feature = "simavr")]
    machines.extend(simavr::Simavr::new(work).map(|simavr| ("simavr", Box::new(simavr) as Box<dyn Machine>)));
    machines
}

/// All must have done the same as the original, whose PC is not shown, and stand where the port does.
fn agree(machines: &[Named]) {
    let (original, port) = (&machines[0].1, &machines[1].1);
    for (name, machine) in &machines[1..] {
        let same = machine.registers() == original.registers() && machine.data() == original.data() && machine.pc() == port.pc();
        assert!(same, "{name} ends elsewhere");
    }
}

/// Each machine's speeds, sorted. They take turns, so that what else runs on the machine hits all alike.
fn measure(machines: &mut [Named], passes: u32, ticks: u32) -> Vec<[f64; ROUNDS]> {
    let mut speeds = vec![[0.0; ROUNDS]; machines.len()];
    for round in 0..ROUNDS {
        for (speeds, (_, machine)) in speeds.iter_mut().zip(machines.iter_mut()) {
            speeds[round] = speed(machine.as_mut(), passes, ticks);
        }
    }
    speeds.iter_mut().for_each(|speeds| speeds.sort_by(f64::total_cmp));
    speeds
}

fn time(work: &Work) {
    let ticks = ticks_of(work);
    let passes = TIMED_TICKS / ticks;
    let mut machines = machines(work);
    let speeds = measure(&mut machines, passes, ticks);
    agree(&machines);
    println!("{}, {}: {passes} passes of {ticks} ticks; million ticks a second, median of {ROUNDS} rounds (best)", work.name, work.about);
    let original = speeds[0][ROUNDS / 2];
    for ((name, _), speeds) in machines.iter().zip(speeds) {
        let (median, best) = (speeds[ROUNDS / 2], speeds[ROUNDS - 1]);
        println!("  {name:15} {:5.1} ({:5.1}), {:.2} of the original", median / 1e6, best / 1e6, median / original);
    }
}

fn name(work: &Work) {
    for (machine, _) in machines(work) {
        println!("{}\t{machine}", work.name);
    }
}

/// Every machine makes one pass, which is compared, and the one of that name the others.
fn count(work: &Work, name: &str, times: u32) {
    let ticks = ticks_of(work);
    let passes = COUNTED_TICKS / ticks * times;
    let mut machines = machines(work);
    machines.iter_mut().for_each(|(_, machine)| go(machine.as_mut(), 1, ticks));
    agree(&machines);
    let (_, machine) = machines.iter_mut().find(|(other, _)| *other == name).unwrap_or_else(|| refuse());
    go(machine.as_mut(), passes, ticks);
    println!("{}", passes * ticks);
}

/// The loop that growth.rs runs.
fn endless(works: &[Work]) -> &Work {
    works.iter().find(|work| work.name == "add").expect("it is one of them")
}

fn refuse() -> ! {
    eprintln!("bench, bench names, bench passes WORK MACHINE TIMES, bench growth, or bench once MACHINE TICKS");
    exit(2)
}

fn main() {
    let words: Vec<String> = env::args().skip(1).collect();
    let works = works();
    match words.iter().map(String::as_str).collect::<Vec<_>>()[..] {
        [] => works.iter().for_each(time),
        ["names"] => works.iter().for_each(name),
        ["passes", work, machine, times] => {
            let work = works.iter().find(|other| other.name == work).unwrap_or_else(|| refuse());
            count(work, machine, times.parse().unwrap_or_else(|_| refuse()))
        }
        ["growth"] => growth::time(endless(&works)),
        ["once", machine, ticks] => growth::once(endless(&works), machine, ticks.parse().unwrap_or_else(|_| refuse())),
        _ => refuse(),
    }
}
