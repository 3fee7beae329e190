//! Ten million ticks with a thousand firings of the timer, and with a hundred thousand, beside as many ticks with none: by `avr_run`, by `avr_run_schedule` and by `avr_tick`, in turns.
//! `schedule names`: a line for each way, its call first. `schedule once WAY`: one such run, for a program around this one that counts instructions; prints the ticks.

#[path = "../clock.rs"]
mod clock;

use std::env;
use std::process::exit;

use avr_core::{bytes, Answer, Firing, Snapshot};
use clock::processor_time;

const TICKS: u32 = 10_000_000;
const ROUNDS: usize = 9;
const IMAGE: &[u8] = include_bytes!("../../../firmware/heat_index_timer.bin");
const CODE_BYTES: usize = 0x400;
const DATA_BYTES: usize = 16_384;
const VECTOR: u16 = 16;
const NOP: u16 = 0x0000;
const SEI: u16 = 0x9478;
const BREAK: u16 = 0x9598;
const ENTERED: u32 = Answer::Entered.number();
const RAN: u32 = Answer::Ran.number();
const BUDGET: u32 = Answer::Budget.number();

/// What stands behind a run: the core, the data, and the tick of each entry.
type Outcome = (Snapshot, Vec<u8>, Vec<u32>);

/// A program and its firings, also as a list, and the call that runs them.
struct Way {
    name: &'static str,
    call: &'static str,
    go: fn(&Way) -> Outcome,
    program: Vec<u8>,
    firings: Vec<Firing>,
    list: Vec<u8>,
}

impl Way {
    fn fresh(&self) -> Outcome {
        (Snapshot::fresh(0), vec![0; DATA_BYTES], vec![0; self.firings.len()])
    }

    fn run(&self) -> Outcome {
        let (mut snapshot, mut data, entered) = self.fresh();
        assert_eq!(bytes::run(&mut snapshot, &self.program, &mut data, bytes::NO_OFFER, TICKS), (BUDGET, TICKS));
        (snapshot, data, entered)
    }

    fn schedule(&self) -> Outcome {
        let (mut snapshot, mut data, mut entered) = self.fresh();
        assert_eq!(bytes::run_schedule(&mut snapshot, &self.program, &mut data, &self.list, TICKS, &mut entered), (BUDGET, TICKS));
        (snapshot, data, entered)
    }

    /// As a host does that has no other call.
    fn ticks(&self) -> Outcome {
        let (mut snapshot, mut data, mut entered) = self.fresh();
        let mut next = 0;
        for tick in 1..=TICKS {
            let due = self.firings.get(next).filter(|firing| firing.tick() <= tick);
            let offer = due.map_or(bytes::NO_OFFER, |firing| firing.vector().into());
            let answer = bytes::tick(&mut snapshot, &self.program, &mut data, offer);
            assert!(answer <= RAN, "a tick stopped");
            if answer == ENTERED {
                entered[next] = tick;
                next += 1;
            }
        }
        (snapshot, data, entered)
    }
}

/// The program with another word in the place of the last of these in its code.
fn with(mut program: Vec<u8>, old: u16, new: impl Fn(u16) -> u16) -> Vec<u8> {
    let at = (0..CODE_BYTES).step_by(2).rfind(|&at| program[at..at + 2] == old.to_le_bytes()).expect("the code has it");
    program[at..at + 2].copy_from_slice(&new(at as u16 / 2).to_le_bytes());
    program
}

/// The image, which begins again where it would stop: RJMP to word 0 in the place of BREAK.
fn endless() -> Vec<u8> {
    with(IMAGE.to_vec(), BREAK, |place| 0xC000 | (place + 1).wrapping_neg() & 0x0FFF)
}

fn fired(tick: u32) -> Firing {
    Firing::new(tick, VECTOR).expect("no tick has more than 24 bits")
}

/// One in the middle of every so many ticks.
fn every(ticks: u32) -> Vec<Firing> {
    (0..TICKS / ticks).map(|i| fired(i * ticks + ticks / 2)).collect()
}

/// The firing that waits throughout does so since nothing sets I.
fn ways() -> Vec<Way> {
    let way = |name, go, firings: Vec<Firing>| {
        let list = bytes::list_of(&firings);
        Way { name, call: name.split(',').next().expect("its call is first"), go, program: endless(), firings, list }
    };
    let one = vec![fired(1)];
    vec![
        way("avr_run, none", Way::run, vec![]),
        way("avr_run_schedule, none", Way::schedule, vec![]),
        way("avr_run_schedule, a thousand", Way::schedule, every(10_000)),
        way("avr_run_schedule, a hundred thousand", Way::schedule, every(100)),
        Way { program: with(endless(), SEI, |_| NOP), ..way("avr_run_schedule, one that waits throughout", Way::schedule, one) },
        way("avr_tick, none", Way::ticks, vec![]),
        way("avr_tick, a thousand", Way::ticks, every(10_000)),
        way("avr_tick, a hundred thousand", Way::ticks, every(100)),
    ]
}

/// How many firings are entered, where all ends as by single ticks.
fn entries(way: &Way) -> usize {
    let outcome = (way.go)(way);
    assert!(outcome == way.ticks(), "{}: ends elsewhere than by avr_tick", way.name);
    outcome.2.iter().filter(|&&tick| tick != 0).count()
}

fn nanoseconds_a_tick(way: &Way) -> f64 {
    let start = processor_time();
    (way.go)(way);
    (processor_time() - start) * 1e9 / f64::from(TICKS)
}

/// All take turns, so that what else runs on the machine hits all alike.
fn time(ways: &[Way]) {
    let mut times = vec![[0.0; ROUNDS]; ways.len()];
    for round in 0..ROUNDS {
        ways.iter().zip(&mut times).for_each(|(way, times)| times[round] = nanoseconds_a_tick(way));
    }
    times.iter_mut().for_each(|times| times.sort_by(f64::total_cmp));
    println!("{TICKS} ticks of heat_index_timer, which begins again for ever: nanoseconds a tick, median of {ROUNDS} rounds (best)");
    for (way, sorted) in ways.iter().zip(&times) {
        let (median, first) = (sorted[ROUNDS / 2], times[0][ROUNDS / 2]);
        let told = format!("{median:5.2} ({:5.2}), {:.2} of avr_run", sorted[0], median / first);
        println!("  {:45}{told}, {} of {} entered", way.name, entries(way), way.firings.len());
    }
}

fn refuse() -> ! {
    eprintln!("schedule, schedule names, or schedule once WAY");
    exit(2)
}

fn main() {
    let (words, ways) = (env::args().skip(1).collect::<Vec<_>>(), ways());
    match words.iter().map(String::as_str).collect::<Vec<_>>()[..] {
        [] => time(&ways),
        ["names"] => ways.iter().for_each(|way| println!("{}\t{}", way.call, way.name)),
        ["once", name] => {
            let way = ways.iter().find(|way| way.name == name).unwrap_or_else(|| refuse());
            (way.go)(way);
            println!("{TICKS}");
        }
        _ => refuse(),
    }
}
