//! Random cores, programs, data, offers and schedules: each typed call gives and leaves what the call over bytes does.

use crate::cores;
use crate::random::Random;
use avr_core::bytes::{self, NO_OFFER};
use avr_core::{foretell, run, run_schedule, tick, Answer, Firing, Refusal, Snapshot, SNAPSHOT_BYTES};
use std::collections::BTreeMap;

const CASES: usize = 20_000;

/// A core with its data.
#[derive(Clone, PartialEq)]
struct Machine {
    snapshot: Snapshot,
    data: Vec<u8>,
}

impl Machine {
    fn new(random: &mut Random) -> Self {
        let snapshot = std::iter::repeat_with(|| cores::snapshot(random)).find(|bytes| bytes.len() == SNAPSHOT_BYTES);
        let snapshot = Snapshot::try_from(&snapshot.unwrap()[..]).unwrap();
        Machine { snapshot, data: cores::data(random) }
    }
}

fn offer(random: &mut Random) -> Option<u16> {
    u16::try_from(cores::offer(random)).ok()
}

fn number(said: Result<Answer, Refusal>) -> u32 {
    said.map_or_else(Refusal::number, Answer::number)
}

/// Both ways from the same machine; what they leave is the same. Gives what they gave, typed first.
fn both<T, U>(machine: &Machine, typed: impl FnOnce(&mut Machine) -> T, plain: impl FnOnce(&mut Machine) -> U) -> (T, U) {
    let (mut left, mut right) = (machine.clone(), machine.clone());
    let gave = (typed(&mut left), plain(&mut right));
    assert!(left == right, "they leave different things");
    gave
}

fn counted(said: &mut BTreeMap<u32, u32>, number: u32) {
    *said.entry(number).or_insert(0) += 1;
}

#[test]
fn ticks_are_those_over_bytes() {
    let (mut random, mut seen) = (Random(24), BTreeMap::new());
    for _ in 0..CASES {
        let (machine, program, offer) = (Machine::new(&mut random), cores::program(&mut random), offer(&mut random));
        let plain_offer = offer.map_or(NO_OFFER, u32::from);
        let foretold = number(foretell(&machine.snapshot, &program, &machine.data, offer));
        assert_eq!(foretold, bytes::foretell(&machine.snapshot, &program, &machine.data, plain_offer));
        let typed = |m: &mut Machine| tick(&mut m.snapshot, &program, &mut m.data, offer);
        let (typed, plain) = both(&machine, typed, |m| bytes::tick(&mut m.snapshot, &program, &mut m.data, plain_offer));
        assert_eq!((number(typed), foretold), (plain, plain));
        counted(&mut seen, plain);
    }
    for number in [1, 2, 3, 4, 8, 9, 16, 17, 18, 21, 23] {
        assert!(seen.contains_key(&number), "no case of {number} among {seen:?}");
    }
}

#[test]
fn runs_are_those_over_bytes() {
    let (mut random, mut seen) = (Random(25), BTreeMap::new());
    for _ in 0..CASES {
        let (machine, program, offer) = (Machine::new(&mut random), cores::program(&mut random), offer(&mut random));
        let budget = random.below(50) as u32;
        let plain_offer = offer.map_or(NO_OFFER, u32::from);
        let typed = |m: &mut Machine| run(&mut m.snapshot, &program, &mut m.data, offer, budget);
        let (typed, plain) = both(&machine, typed, |m| bytes::run(&mut m.snapshot, &program, &mut m.data, plain_offer, budget));
        let typed = typed.map_or_else(|refused| (refused.refusal.number(), refused.ticks), |ran| (ran.answer.number(), ran.ticks));
        assert_eq!(typed, plain);
        counted(&mut seen, plain.0);
    }
    for number in [1, 2, 3, 4, 8, 9, 23, 24] {
        assert!(seen.contains_key(&number), "no case of {number} among {seen:?}");
    }
}

/// Some firings with ticks that mostly rise.
fn firings(random: &mut Random) -> Vec<Firing> {
    let (count, mut tick) = (random.below(6), 0);
    let mut next = || {
        tick += if random.one_in(30) { 0 } else { 1 + random.below(15) as u32 };
        Firing::new(tick, random.below(65_536) as u16).unwrap()
    };
    (0..count).map(|_| next()).collect()
}

#[test]
fn schedules_are_those_over_bytes() {
    let (mut random, mut seen, mut entries) = (Random(26), BTreeMap::new(), 0);
    for _ in 0..CASES {
        let (machine, program, firings) = (Machine::new(&mut random), cores::program(&mut random), firings(&mut random));
        let budget = random.below(50) as u32;
        let (list, mut entered) = (bytes::list_of(&firings), vec![0; firings.len()]);
        let typed = |m: &mut Machine| run_schedule(&mut m.snapshot, &program, &mut m.data, &firings, budget);
        let plain = |m: &mut Machine| bytes::run_schedule(&mut m.snapshot, &program, &mut m.data, &list, budget, &mut entered);
        let (typed, plain) = both(&machine, typed, plain);
        let (number, ticks, typed_entries) = match typed {
            Ok(scheduled) => (scheduled.answer.number(), scheduled.ticks, scheduled.entries),
            Err(refused) => (refused.refusal.number(), refused.ticks, refused.entries),
        };
        assert_eq!((number, ticks), plain);
        assert!(typed_entries.iter().map(|entry| entry.unwrap_or(0)).eq(entered));
        entries += typed_entries.iter().flatten().count();
        counted(&mut seen, number);
    }
    for number in [1, 2, 3, 4, 8, 9, 23, 24, 31] {
        assert!(seen.contains_key(&number), "no case of {number} among {seen:?}");
    }
    assert!(entries > 0);
}
